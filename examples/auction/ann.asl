// Bids the same for everything.

+auction(Thing)[source(A)] <- .send(A, tell, bid(Thing, 60)).
