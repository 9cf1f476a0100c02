// A ship that asks for a berth.

!land.

+!land <- .print("a berth, please"); .send(master, achieve, berth).

+berth(Berth) <- .print("lands at ", Berth).
+full <- .print("stays at sea").
