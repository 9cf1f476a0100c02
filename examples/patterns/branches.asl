// if, for and while are goals with several plans.

stock(tea, 3). stock(rice, 0). stock(salt, 5).
left(3).

!start.

+!start <- !check(tea); !check(rice); !all; !empty; .print("end").

// if (stock(X, N) & N > 0) { .. } else { .. }
+!check(X) : stock(X, N) & N > 0 <- .print(X, ": ", N).
+!check(X) <- .print(X, ": none").

// for (stock(X, N)) { .. }
+!all <- .findall(s(X, N), stock(X, N), L); !each(L).
+!each([]).
+!each([s(X, N)|R]) <- .print(N, " of ", X); !each(R).

// while (left(N) & N > 0) { .. }
+!empty : left(N) & N > 0 <- .print("left ", N); -+left(N - 1); !empty.
+!empty.
