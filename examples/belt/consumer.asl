// Takes what it sees first on the belt, and needs some time for each part.

!take.

+!take : belt([end|_]) <- belt_take(end); .print("that was all").
+!take : belt([X|_]) <- belt_take(X); !work(3); .print("used ", X); !!take.
+!take <- !!take.

+!work(0).
+!work(N) <- !work(N - 1).
