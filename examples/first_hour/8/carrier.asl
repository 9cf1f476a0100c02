// One source for three agents: each finds its price by its name.
price(ann, 4).
price(bob, 3).
price(eve, 7).

+!offer(Place)[source(Boss)] : .my_name(Me) & price(Me, P) <- .send(Boss, tell, offer(Place, P)).

+!go(Place) <- .print("off to the ", Place).
