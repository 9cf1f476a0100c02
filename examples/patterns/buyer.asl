// Takes the best offer once all are there, or once the time is over. One intention waits and closes, so it closes once.

asked(2).
all_in(X) :- asked(N) & .count(price(X, _), N).

!buy(tea).

+!buy(X) <- .broadcast(achieve, offer(X)); !collect(X, 30); .findall(P, price(X, P), L); !take(X, L).

+!collect(X, _) : all_in(X) <- .print("all offers are in").
+!collect(_, 0) <- .print("time is over").
+!collect(X, N) : N > 0 <- !collect(X, N - 1).

+!take(X, []) <- .print("nobody sells ", X).
+!take(X, L) <- .min(L, P); .print(X, " for ", P).
