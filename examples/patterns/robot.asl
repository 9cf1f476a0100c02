!start.

+!start <- open; go(kitchen); !look; pick; !look; lift(9).
-!start[error(E)] <- .print("stopped: ", E).

+!look : garbage_here <- .print("garbage here").
+!look <- .print("clean here").

+open <- .print("the door is open").
