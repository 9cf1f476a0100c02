// Knows what things are worth to him. He wants no chair.

worth(vase, 50).
worth(clock, 90).

+auction(Thing)[source(A)] : worth(Thing, Price) <- .send(A, tell, bid(Thing, Price)).
+auction(Thing)[source(A)] <- .send(A, tell, bid(Thing, 0)).
