// common.asl: rules that all agents of the depot use

// distance in streets
distance(X1, Y1, X2, Y2, D) :-
    D = math.abs(X1 - X2) + math.abs(Y1 - Y2).

// cheapest of a list of offers
cheapest(L, W, P) :- .min(L, offer(P, W)).

cents(Euro, C) :- C = Euro * 100.

// wait for all answers of an announcement, for some time
+!collect(Id, N, MS)
   <- .wait(answers_in(Id, N), MS).
-!collect(Id, N, MS)
   <- .print("not all answers for ", Id, " came in time").

answers_in(Id, N) :-
    .count(propose(Id, _)[source(_)], P) &
    .count(refuse(Id)[source(_)], R) &
    N <= P + R.
