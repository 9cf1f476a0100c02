// Sells a vase to the higher of two bids.

!sell(vase).

+!sell(Thing) <- .broadcast(tell, auction(Thing)).

+bid(Thing, _) : .count(bid(Thing, _)[source(_)], 2) <-
    .findall(P, bid(Thing, P), Prices);
    .max(Prices, Price);
    ?bid(Thing, Price)[source(Winner)];
    .print(Winner, " has the ", Thing, " for ", Price);
    .broadcast(tell, sold(Thing, Winner, Price)).
