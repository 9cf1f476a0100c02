// A cellar is below the ground: no number of steps at which !walk ends.
steps(cellar, -1).

!deliver(cellar).

+!deliver(Place) <-
    ?steps(Place, N);
    !walk(N);
    .print("here is your parcel, ", Place).

-!deliver(Place)[error(no_applicable)] <- .print("who has counted the steps to the ", Place, "?").
-!deliver(Place)[error(E)] <- .print("no parcel for the ", Place, ": ", E).

+!walk(0).
+!walk(N) : N > 0 <- !walk(N - 1).
