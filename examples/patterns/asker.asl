// Waiting without a clock, in three ways.

!event.
!turns.
!look.

// For an event: what stands behind the wait is a plan of its own. The mark is set before the question goes out.
+!event <- +waiting(7); .send(worker, achieve, job(7)).
+done(K) : waiting(K) <- -waiting(K); .print("job ", K, " is done").

// For so many turns of this intention.
+!turns <- !pause(5); .print("paused").

+!pause(0).
+!pause(N) : N > 0 <- !pause(N - 1).

// Until something holds, looking so many times at most; then the goal fails.
+!look <- !until_done(20); .print("seen").
-!look <- .print("not seen").

+!until_done(_) : done(7).
+!until_done(N) : N > 0 <- !until_done(N - 1).
