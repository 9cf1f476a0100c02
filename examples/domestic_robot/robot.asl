// Fetches drinks out of the fridge, orders new ones, and minds the limit of a day.

limit(lemonade, 3).

available(D) :- stock(D, N) & N > 0.

// What is handed in is noted with its day, before it is: the next wish may come at once.
too_much(D) :- limit(D, Most) & day(T) & .count(handed(T, D, _), N) & N >= Most.

+!has(owner, D) : too_much(D) & limit(D, Most) & day(T) <-
    .concat("no more than ", Most, " a day", Why);
    .send(owner, tell, refused(T, Why)).

+!has(owner, D) : available(D) <-
    !at(fridge);
    open(fridge);
    get(D);
    close(fridge);
    !at(owner);
    !note(D);
    hand_in(D).

+!has(owner, D) <- .print("no ", D, " is left"); .send(supermarket, achieve, order(D, 5)).

// The order has come: the owner still waits.
+delivered(D, K, Id)[source(supermarket)] <- .print("order ", Id, ": ", K, " of ", D); !has(owner, D).

+!note(D) : day(T) & .count(handed(T, D, _), N) <- +handed(T, D, N + 1).

+!at(P) : place(P, X) & pos(X).
+!at(P) <- move_towards(P); !at(P).
