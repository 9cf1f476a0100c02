// Open-minded commitment: as blind, and ended too where the goal has lost its reason, or can't be reached any more.

reason.
!start.
!later.

+!start <- !want; .print("no more to do").
-!start[error(E)] <- .print("given up: ", E).
+!want <- !open.

+!open : open.
+!open <- push; !rest(9); ?open.
-!open <- .print("again"); !open.

+open <- .succeed_goal(want).
-reason <- .print("not wanted any more"); .succeed_goal(want).
+jammed <- .print("it can't be opened"); .fail_goal(want).

// what happens meanwhile: the first agent loses its reason, the second one kicks the door
+!later : .my_name(open_minded1) <- !rest(4); -reason.
+!later <- !rest(6); kick.

+!rest(0).
+!rest(N) : N > 0 <- !rest(N - 1).
