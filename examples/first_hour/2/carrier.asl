!walk(3).

+!walk(0) <- .print("here is your parcel"); !back(1).
+!walk(N) : N > 0 <- .print(N, " steps to go"); !walk(N - 1).

+!back(N) : N <= 3 <- .print("step ", N, " of the way back"); !back(N + 1).
+!back(N) <- .print("home again").
