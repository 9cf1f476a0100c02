// Loops are recursive goals: a plan for the end, and a plan for one step.

!count(3).
!total(10).

// Counts down.
+!count(0) <- .print("lift off").
+!count(N) : N > 0 <- .print(N); !count(N - 1).

// Adds 1, 2, .. N. The goal !sum(N, S) binds S when its plan has ended.
+!total(N) <- !sum(N, S); .print("1 + .. + ", N, " is ", S).

+!sum(0, 0).
+!sum(N, S) : N > 0 <- !sum(N - 1, T); S = T + N.
