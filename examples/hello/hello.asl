// An agent with one goal and one plan for it.

!start.

+!start <- .print("hello, world").
