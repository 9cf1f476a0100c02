// A lock that holds, among agents too: the world does slot_take for one at a time, and fails for the others, who try again.

x(0).
!add.
!add.
!add.

+!add <- !take; ?x(N); !slow; -+x(N + 1); slot_give; !report.

+!take <- slot_take.
-!take <- !take.

+!slow <- !slower.
+!slower.

+!report <- ?x(N); .print("x is ", N).
