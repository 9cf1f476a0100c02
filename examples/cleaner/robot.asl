// Sucks the dirt where it stands, and goes on to the next place until there is none.

!clean.

here(X) :- at(robot, X).

+!clean : here(X) & dirt(X) <- suck; !clean.
+!clean : here(40) <- .send(boss, tell, clean).
+!clean <- move; !clean.
