+tired <- .print("I am tired"); sleep.
-tired <- .print("good morning").
