// Climbs branch after branch, and goes back where there is no way on.

!bananas.

here(X) :- at(monkey, X).

+!bananas : here(X) & bananas(X) <- eat; .print("bananas in the ", X).
+!bananas : here(X) & branch(X, Y) & not tried(Y) <- +tried(Y); climb(Y); !bananas.

// No plan above is applicable here: a dead end. The rest of the tree is still to be looked at.
-!bananas[error(no_applicable)] : here(X) & branch(Y, X) <-
    .print("nothing in the ", X, ", back to the ", Y);
    back;
    !bananas.

// The action was not done: the branch is rotten. The monkey stays where it is, and tries another one.
-!bananas[error(action_failed)] <- .print("that was close"); !bananas.

// Back on the ground.
-!bananas <- .print("there are no bananas").
