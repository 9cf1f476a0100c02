// Rules to copy into a source. Each is asked by `?`, or in a context: ?sort([2, 1], L). A base case is written as a rule, with
// `:- true`, since a belief would be an event at the start.

// the numbers of a list, smallest first
sort([], []) :- true.
sort([X|R], S) :- sort(R, T) & insert(X, T, S).
insert(X, [], [X]) :- true.
insert(X, [Y|R], [X, Y|R]) :- X <= Y.
insert(X, [Y|R], [Y|S]) :- X > Y & insert(X, R, S).

// A, A + 1, .. B
range(A, B, []) :- A > B.
range(A, B, [A|R]) :- A <= B & range(A + 1, B, R).

// a list without the items X
delete(_, [], []) :- true.
delete(X, [X|R], S) :- delete(X, R, S).
delete(X, [Y|R], [Y|S]) :- X \== Y & delete(X, R, S).

// each item once
set([], []) :- true.
set([X|R], [X|S]) :- delete(X, R, T) & set(T, S).

// the items of the first list that are not in the second, and behind them the second; those that are in both; those that are
// in the first alone
union([], M, M) :- true.
union([X|R], M, U) :- .member(X, M) & union(R, M, U).
union([X|R], M, [X|U]) :- not .member(X, M) & union(R, M, U).
both([], _, []) :- true.
both([X|R], M, [X|B]) :- .member(X, M) & both(R, M, B).
both([X|R], M, B) :- not .member(X, M) & both(R, M, B).
minus([], _, []) :- true.
minus([X|R], M, D) :- .member(X, M) & minus(R, M, D).
minus([X|R], M, [X|D]) :- not .member(X, M) & minus(R, M, D).

// of pairs d(WHAT, NUMBER) the first with the least number, and with the greatest
least([P|R], L) :- least(R, P, L).
least([], P, P) :- true.
least([d(X, N)|R], d(_, M), L) :- N < M & least(R, d(X, N), L).
least([d(_, N)|R], d(Y, M), L) :- N >= M & least(R, d(Y, M), L).
greatest([P|R], L) :- greatest(R, P, L).
greatest([], P, P) :- true.
greatest([d(X, N)|R], d(_, M), L) :- N > M & greatest(R, d(X, N), L).
greatest([d(_, N)|R], d(Y, M), L) :- N <= M & greatest(R, d(Y, M), L).

// the sum of the numbers of a list
sum([], 0) :- true.
sum([X|R], S) :- sum(R, T) & S = T + X.

// a list of lists as one list
flatten([], []) :- true.
flatten([X|R], F) :- .list(X) & flatten(X, A) & flatten(R, B) & .concat(A, B, F).
flatten([X|R], [X|F]) :- not .list(X) & flatten(R, F).

// the last item
last([X], X) :- true.
last([_|R], X) :- last(R, X).

// a number without its sign
abs(X, X) :- X >= 0.
abs(X, Y) :- X < 0 & Y = -X.

!start.

+!start <-
    ?sort([3, 1, 2, 1], A); .print("sort ", A);
    ?range(1, 5, B); .print("range ", B);
    ?delete(a, [a, b, a, c], C); .print("delete ", C);
    ?set([a, b, a, c, b], D); .print("set ", D);
    ?union([a, b], [b, c], E); .print("union ", E);
    ?both([a, b], [b, c], F); .print("both ", F);
    ?minus([a, b], [b, c], G); .print("minus ", G);
    ?least([d(ann, 7), d(bob, 4), d(eve, 9)], H); .print("least ", H);
    ?greatest([d(ann, 7), d(bob, 4), d(eve, 9)], I); .print("greatest ", I);
    ?sum([1, 2, 3], J); .print("sum ", J);
    ?flatten([1, [2, [3, []]], [4]], K); .print("flatten ", K);
    ?last([a, b, c], L); .print("last ", L);
    ?abs(-3, M); .print("abs ", M).
