!start.

+!start <- .print("good morning"); .print("ready for work").
