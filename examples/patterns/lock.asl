// A belief as a lock loses updates: three goals add one each, and the sum is 2.

free.
x(0).
!add.
!add.
!add.

+!add : free <- -free; ?x(N); !slow; -+x(N + 1); +free; !report.
+!add <- !add.

+!slow <- !slower.
+!slower.

+!report <- ?x(N); .print("x is ", N).
