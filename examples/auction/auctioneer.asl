// Sells one thing after the other, each to the highest of three bids.

!sell([vase, clock, chair]).

+!sell([]) <- .print("all is sold").
+!sell([Thing|Others]) <-
    -+others(Others);
    .print("who wants the ", Thing, "?");
    .broadcast(tell, auction(Thing)).

// A bid is a belief whose source is the bidder. With the third one the auction of that thing is closed.
+bid(Thing, _) : .count(bid(Thing, _)[source(_)], 3) <-
    .findall(P, bid(Thing, P), Prices);
    .max(Prices, Price);
    ?bid(Thing, Price)[source(Winner)];
    .print(Winner, " has the ", Thing, " for ", Price);
    .broadcast(tell, sold(Thing, Winner, Price));
    ?others(Others);
    !sell(Others).
