!ask.

+!ask <- .send(carrier, askAll, steps(Place, N), All); !tell(All).

+!tell([]).
+!tell([steps(Place, N)|Rest]) <- .print("to the ", Place, ": ", N, " steps"); !tell(Rest).
