// Failure plans: which error it was, and a question with a failure plan of its own.

weight(box, 3).
weight(safe, 90).
weight(lamp, 1).
lost(lamp).
!load(box).
!load(safe).
!load(moon).
!load(lamp).

+!load(X) <- ?weight(X, W); W < 10; !find(X); .print(X, " is loaded").
+!find(X) : not lost(X).

// A question without an answer and a relation that does not hold are both test_failed, so the question has its own.
-?weight(X, _) <- .print("nobody knows the weight of ", X); .fail.

-!load(X)[error(test_failed)] <- .print(X, " is too heavy").
-!load(X)[error(E)] <- .print(X, " is not loaded: ", E).
