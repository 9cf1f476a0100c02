// Wants one drink after another, and sleeps when the robot brings no more; on the third day the owner has had enough.

+day(N) : N < 3 <- .print("day ", N); !get(lemonade).
+day(3) <- .print("no more lemonade for me").

+!get(D) <- .send(robot, achieve, has(owner, D)).

// The world says when there is a drink, and when the glass is empty.
+has(owner, D) <- !drink(D).
-has(owner, D) <- !get(D).

+!drink(D) : has(owner, D) <- sip(D); !drink(D).
+!drink(_).

+refused(_, Why)[source(robot)] <- .print("the robot says: ", Why); sleep.
