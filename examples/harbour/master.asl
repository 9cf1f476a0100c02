// Assigns berths to ships, wherever these are. Who asks is told by the source of the goal.

+!berth[source(Ship)] : free(Berth) <-
    assign(Ship, Berth);
    .send(Ship, tell, berth(Berth)).
+!berth[source(Ship)] <- .send(Ship, tell, full).
