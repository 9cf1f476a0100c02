// Takes the right fork, then the left one, eats, and puts both back.

!sit.

+!sit : right(F) <- take(F).

+holds(F) : right(F) & left(G) <- take(G).

+holds(F) : left(F) & right(G) <-
    .print("eats");
    put(G);
    put(F).
