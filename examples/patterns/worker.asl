+!job(K)[source(A)] <- !work(6); .send(A, tell, done(K)).

+!work(0).
+!work(N) : N > 0 <- !work(N - 1).
