// Puts eight parts on the belt, and then a sign that there are no more.

!make(1).

+!make(9) <- !put(end).
+!make(N) <- !put(part(N)); !make(N + 1).

// Where the belt is full the action fails, and the failure plan tries it again.
+!put(X) <- belt_put(X).
-!put(X)[error(action_failed)] <- .print("no room for ", X); !put(X).
