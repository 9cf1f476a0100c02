steps(bakery, 2).
steps(harbour, 9).

+order(Place)[source(Who)] <-
    .print("to the ", Place, ", for ", Who);
    .send(Who, tell, done(Place)).
