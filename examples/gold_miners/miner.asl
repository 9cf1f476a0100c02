// Bids for gold, and fetches what it is given, one piece after another. The three miners share this source.

!work.

abs(X, X) :- X >= 0.
abs(X, Y) :- X < 0 & Y = -X.
way(X, Y, U, V, N) :- abs(X - U, A) & abs(Y - V, B) & N = A + B.

// The steps from X, Y to each of some places in turn, and from each to the depot.
tour([], _, _, 0).
tour([at(U, V)|Others], X, Y, N) :-
    depot(C, D) & way(X, Y, U, V, There) & way(U, V, C, D, Back) & tour(Others, C, D, Rest) & N = There + Back + Rest.

// The bid: all steps of this miner until the new piece is in the depot, behind those that it was given before.
+offer(K, X, Y)[source(Leader)] :
        start(A, B) & .findall(at(U, V), yours(_, U, V), Given) & .concat(Given, [at(X, Y)], All) & tour(All, A, B, N) <-
    .send(Leader, tell, bid(K, N)).

// One goal does all work, so it carries one piece at a time.
+!work : pos(X, Y) <- +start(X, Y); !dig.

+!dig : yours(K, X, Y) & not dug(K) & depot(C, D) <-
    !at(X, Y);
    pick(K);
    !at(C, D);
    drop(K);
    +dug(K);
    !dig.
+!dig : no_more <- .print("no more to do").
+!dig <- !dig.

+!at(X, Y) : pos(X, Y).
+!at(X, Y) <- move_towards(X, Y); !at(X, Y).
