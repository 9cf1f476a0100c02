// Bids what the thing is worth to the agent of this name.

worth(buyer1, 10).
worth(buyer2, 30).

+auction(Thing)[source(A)] : .my_name(Me) & worth(Me, Price) <- .send(A, tell, bid(Thing, Price)).
