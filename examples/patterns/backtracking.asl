// A goal with several ways: each is tried once, in the order of the plans. A way that was tried is a belief.

!start.

+!start <- !open; .print("open").
-!start[error(E)] <- .print("no way is left: ", E).

+!open : open.
+!open : not tried(call) <- +tried(call); .print("call"); ?open.
+!open : not tried(push) <- +tried(push); .print("push"); push; ?open.
+!open : not tried(hard) <- +tried(hard); .print("push hard"); push; push; ?open.
+!open : not tried(kick) <- +tried(kick); .print("kick"); kick; ?open.

-!open[error(test_failed)] <- !open.
-!open[error(action_failed)] <- !open.
