// station.asl: tells which place to charge at is free

place(north).
place(south).
taken(north).

+?free(S) : place(S) & not taken(S).

!watch(3).

+!watch(0).
+!watch(N)
   <- .random(R);
      X = math.floor(R * 2);
      if (X == 0) { -taken(_); +taken(north) } else { -taken(_); +taken(south) };
      .wait(1000);
      !watch(N - 1).
