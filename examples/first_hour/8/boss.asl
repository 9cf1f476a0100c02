!bring(school).

+!bring(Place) <-
    .print("who brings a parcel to the ", Place, "?");
    .broadcast(achieve, offer(Place)).

// All four have answered, in one way or the other.
all_answered(Place) :-
    .count(offer(Place, _)[source(_)], Offers) &
    .count(refusal(Place)[source(_)], Refusals) &
    Offers + Refusals == 4.

+offer(Place, _) : all_answered(Place) <- !choose(Place).
+refusal(Place) : all_answered(Place) <- !choose(Place).

+!choose(Place) <-
    .findall(P, offer(Place, P), Prices);
    .min(Prices, Best);
    ?offer(Place, Best)[source(Winner)];
    .print(Winner, " goes for ", Best);
    .send(Winner, achieve, go(Place)).
