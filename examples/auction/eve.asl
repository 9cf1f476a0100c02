// Bids half of the money that she has left.

money(200).

+auction(Thing)[source(A)] : money(M) <- .send(A, tell, bid(Thing, M div 2)).

+sold(Thing, eve, Price) : money(M) <- -+money(M - Price); .print("I have a ", Thing).
