// What the carrier knows: how many steps it is to a place, and how many parcels it has delivered.
steps(bakery, 2).
steps(school, 3).
steps(harbour, 9).
parcels(0).

near(Place) :- steps(Place, N) & N < 5.

!deliver(bakery).
!deliver(harbour).
!deliver(school).

+!deliver(Place) : near(Place) <-
    ?steps(Place, N);
    .print("to the ", Place, ": ", N, " steps");
    +delivered(Place).
+!deliver(Place) <- .print("the ", Place, " is too far").

+delivered(Place) : parcels(N) <- -+parcels(N + 1); .print("parcels so far: ", N + 1).
