// Six queens on a board of six by six, none of which may beat another. The context of the plan searches:
// it goes back by itself wherever no row is left for a queen.

!solve([1, 2, 3, 4, 5, 6]).

+!solve(Free) : place(Free, [], Rows) <-
    .print("rows of the queens, column by column: ", Rows);
    !show(Rows);
    .count(place(Free, [], _), N);
    .print("there are ", N, " solutions").
+!solve(Free) <- .print("there is no solution").

// place(Free, Placed, All): the queens of the rows Free, put before those of the rows Placed, give All.
place([], Placed, Placed).
place(Free, Placed, All) :-
    .member(Row, Free) & is_safe(Row, Placed, 1) & without(Row, Free, Rest) & place(Rest, [Row|Placed], All).

// is_safe(Row, Placed, Distance): no queen of Placed, the first of them Distance columns away, is on a diagonal with Row.
is_safe(_, [], _).
is_safe(Row, [Other|Placed], Distance) :-
    Row \== Other + Distance & Row \== Other - Distance & is_safe(Row, Placed, Distance + 1).

// without(X, L, R): the list R is L without X.
without(X, [X|L], L).
without(X, [Y|L], [Y|R]) :- X \== Y & without(X, L, R).

+!show([]).
+!show([Row|Rows]) : line(Row, Text) <- .print(Text); !show(Rows).

line(1, "Q . . . . .").
line(2, ". Q . . . .").
line(3, ". . Q . . .").
line(4, ". . . Q . .").
line(5, ". . . . Q .").
line(6, ". . . . . Q").
