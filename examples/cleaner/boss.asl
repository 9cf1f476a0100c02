// Waits for the robot's message.

+clean[source(R)] <- .print("clean by ", R); .stopMAS.
