price(ann, 4).
price(bob, 3).
price(eve, 7).

+!offer(Place)[source(Boss)] : .my_name(Me) & price(Me, P) <- .send(Boss, tell, offer(Place, P)).

+!go(Place)[source(Boss)] <- carry(Place); .print("it is at the ", Place).

// The action was not done: whoever gave the work has to hear of it.
-!go(Place)[source(Boss)] <- .print("my cart is broken"); .send(Boss, tell, failed(Place)).
