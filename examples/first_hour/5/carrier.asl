steps(bakery, 2).

+order(Place)[source(Who)] <- !deliver(Place, Who).

+!deliver(Place, Who) <-
    ?steps(Place, N);
    .print("to the ", Place, ", for ", Who);
    .send(Who, tell, done(Place)).
-!deliver(Place, Who) <- .send(Who, tell, refused(Place)).
