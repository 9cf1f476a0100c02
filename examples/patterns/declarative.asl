// The goal is a belief to come: it is reached where that is held, whatever was done for it, and fails where its plan has ended
// and the belief is not held.

!start.

+!start <- !try(1); !try(2); !try(3); !try(4).

+!try(N) <- !open; .print("try ", N, ": open").
-!try(N)[error(E)] <- .print("try ", N, ": ", E).

+!open : open.
+!open <- push; ?open.
