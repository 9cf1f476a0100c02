// Takes the left fork, then the right one, eats, and puts both back.

!sit.

+!sit : left(F) <- take(F).

+holds(F) : left(F) & right(G) <- take(G).

+holds(F) : right(F) & left(G) <-
    .print("eats");
    put(G);
    put(F).
