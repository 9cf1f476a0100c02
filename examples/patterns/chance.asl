// Chance without .random: a generator whose last number is a belief. Another first number gives another run.

seed(42).
!throw(6).

// X becomes a number from 0 to N - 1.
+!random(N, X) <- ?seed(S); T = (S * 1103515245 + 12345) mod 2147483648; -+seed(T); X = (T div 65536) mod N.

+!throw(0).
+!throw(K) : K > 0 <- !random(6, X); .print(X + 1); !throw(K - 1).
