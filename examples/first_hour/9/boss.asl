!bring(school).

// Asks all others for an offer.
+!bring(Place) <-
    .print("who brings a parcel to the ", Place, "?");
    .broadcast(achieve, offer(Place)).

// The third offer is there.
+offer(Place, _) : .count(offer(Place, _)[source(_)], 3) <- !choose(Place).

+!choose(Place) <-
    .findall(P, offer(Place, P), Prices);
    .min(Prices, Best);
    ?offer(Place, Best)[source(Winner)];
    .print(Winner, " goes for ", Best);
    .send(Winner, achieve, go(Place)).

// An offer that did not hold is forgotten, and the rest is chosen from.
+failed(Place)[source(Who)] <- .abolish(offer(Place, _)[source(Who)]); !choose(Place).

// No offer is left, so there is no lowest one.
-!choose(Place) <- .print("nobody brings it to the ", Place).
