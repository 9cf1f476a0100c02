// Sends items one by one, each with a bit, and the next one once that bit has come back.

sending([a, b], 0).

!send.

+!send : sending([X|_], B) <- .send(receiver, achieve, item(X, B)).
+!send.

+!received(B) : sending([_|Rest], B) <-
    -+sending(Rest, 1 - B);
    !send.
+!received(_).
