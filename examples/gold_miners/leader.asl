// Offers one piece of gold after another to the miners, and gives each to the one with the lowest bid.

miners(3).

!allot.

all_bids(K) :- miners(N) & .count(bid(K, _)[source(_)], N).

+!allot <-
    .findall(gold(K, X, Y), gold(K, X, Y), Map);
    !offer(Map);
    .broadcast(tell, no_more);
    .length(Map, N);
    !all_in(N);
    .print("all gold is in the depot").

+!offer([]).
+!offer([gold(K, X, Y)|Others]) <-
    .broadcast(tell, offer(K, X, Y));
    !bids(K);
    .findall(Cost, bid(K, Cost), Costs);
    .min(Costs, Best);
    !give(K, X, Y, Best);
    !offer(Others).

// One goal waits until all have answered, and then goes on.
+!bids(K) : all_bids(K).
+!bids(K) <- !bids(K).

+!give(K, X, Y, Best) : bid(K, Best)[source(Miner)] <-
    .print("gold ", K, " is for ", Miner, " at ", Best, " steps");
    .send(Miner, tell, yours(K, X, Y)).

// The leader sees what was brought, notes it, and waits until so many pieces are noted.
+brought(K, Miner) <- .print(Miner, " has brought gold ", K); +noted(K).

+!all_in(N) : .count(noted(_), N).
+!all_in(N) <- !all_in(N).
