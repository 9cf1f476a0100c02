// Walks over all places of the grid, and carries the garbage that it finds to r2.

!check.

// The next place of the walk, which goes to and fro; the first of these that holds.
next(X, Y, U, Y) :- Y mod 2 == 1 & X < 4 & U = X + 1.
next(X, Y, U, Y) :- Y mod 2 == 0 & X > 1 & U = X - 1.
next(X, Y, X, V) :- Y < 4 & V = Y + 1.

// The first step of the way from X, Y to another place.
step(X, Y, To, _, U, Y) :- X < To & U = X + 1.
step(X, Y, To, _, U, Y) :- X > To & U = X - 1.
step(X, Y, X, To, X, V) :- Y < To & V = Y + 1.
step(X, Y, X, To, X, V) :- Y > To & V = Y - 1.

+!check : garbage_here <- !carry; !check.
+!check : pos(r1, X, Y) & next(X, Y, U, V) <- go(U, V); !check.
+!check <- .print("all places are checked").

// To r2, and back to where the walk was left. What lies on the way is left for later.
+!carry : pos(r1, X, Y) & pos(r2, U, V) <-
    !pick;
    !at(U, V);
    drop;
    !at(X, Y).

// As often as it takes, since garbage may slip.
+!pick : garbage_here <- pick; !pick.
+!pick : carries(G) & pos(r1, X, Y) <- .print(G, " at ", X, ", ", Y).

+!at(X, Y) : pos(r1, X, Y).
+!at(X, Y) : pos(r1, A, B) & step(A, B, X, Y, U, V) <- go(U, V); !at(X, Y).
