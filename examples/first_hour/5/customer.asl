!order(bakery).
!order(moon).

+!order(Place) <- .send(carrier, tell, order(Place)).

+done(Place)[source(Who)] <- .print("thank you, ", Who).
+refused(Place)[source(Who)] <- .print(Who, " does not go to the ", Place).
