// Delivers what is ordered. Each order has a number, so that no two messages about them are the same.

last_order(0).

+!order(D, K)[source(A)] : last_order(N) <-
    -+last_order(N + 1);
    deliver(D, K);
    .send(A, tell, delivered(D, K, N + 1)).
