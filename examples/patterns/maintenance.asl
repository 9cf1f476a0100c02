// What has to hold is restored as soon as it does not: the plan is for the event, and the work waits for it by a context.

!walks(5).

low :- full(K) & K < 2.

+full(K) : K < 2 <- !charge.

+!charge : low <- .print("charging"); charge.
+!charge.

+!walks(0) <- .print("done").
+!walks(N) : low <- !walks(N).
+!walks(N) : N > 0 <- walk; !walks(N - 1).
