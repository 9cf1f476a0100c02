// Gives a task to the cheaper of two participants, once both have introduced themselves and made an offer.

participants(2).

all_are_here :- participants(N) & .count(introduction(participant, _), N).
all_have_offered(Id) :- participants(N) & .count(propose(Id, _)[source(_)], N).

+introduction(participant, _) : all_are_here <-
    .print("asking both");
    .broadcast(tell, cfp(1, fix(computer))).

+propose(Id, _) : all_have_offered(Id) & not decided(Id) <-
    +decided(Id);
    .findall(Offer, propose(Id, Offer), Offers);
    .min(Offers, Best);
    ?propose(Id, Best)[source(Winner)];
    .print("winner is ", Winner, " with ", Best);
    .send(Winner, tell, accept_proposal(Id));
    .findall(Name, propose(Id, _)[source(Name)] & not Name = Winner, [Loser]);
    .send(Loser, tell, reject_proposal(Id)).
