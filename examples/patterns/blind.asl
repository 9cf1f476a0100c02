// Blind commitment: tried again after each failure. It ends when the belief comes, whatever is left to do: what is ended is the goal
// above, since the goal that failed is gone while its failure plan runs.

!start.

+!start <- !want; .print("the way is free").
+!want <- !open.

+!open : open.
+!open <- push; !rest(9); ?open.
-!open <- .print("again"); !open.

+open <- .succeed_goal(want).

+!rest(0).
+!rest(N) : N > 0 <- !rest(N - 1).
