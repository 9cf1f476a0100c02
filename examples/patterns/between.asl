// Between a context and the first item of its plan other intentions make their steps.

note.
!busy.
!busy.
!ann.
!bob.
!eve.
!dan.

// Two intentions with something to do: so a new one has not its first item in the cycle in which its context is asked.
+!busy <- A = 1; B = A + 1; C = B + 1; D = C + 1; E = D + 1; F = E + 1; G = F + 1; H = G + 1.

// A belief: both contexts hold, and the second removal takes nothing away and does not fail.
+!ann : note <- -note; .print("ann has the note").
+!bob : note <- -note; .print("bob has the note").

// A fact of the world: the act asks and takes in one, and fails for the second.
+!eve : coin <- take(eve); .print("eve has the coin").
+!dan : coin <- take(dan); .print("dan has the coin").
