// Takes the left fork once it lies there, then the right one, eats, and puts both back.

!take_left.

+!take_left : left(F) & fork(F) <-
    take(F);
    !take_right.
+!take_left : left(F) <- +wants(F).
-!take_left <- !take_left.

+!take_right : right(F) & fork(F) & left(G) <-
    take(F);
    .print("eats");
    put(G);
    put(F).
+!take_right : right(F) <- +wants(F).
-!take_right <- !take_right.

+fork(F) : wants(F) & left(F) <- -wants(F); !take_left.
+fork(F) : wants(F) & right(F) <- -wants(F); !take_right.
