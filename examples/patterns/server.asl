// One goal serves all, one after another: no other intention has the belief x in hand.

x(0).
todo([a, b, c]).
!serve.

+!serve : todo([K|R]) <- -+todo(R); !add(K); !serve.
+!serve.

+!add(K) <- ?x(N); !slow; -+x(N + 1); .print(K, ": x is ", N + 1).

+!slow <- !slower.
+!slower.
