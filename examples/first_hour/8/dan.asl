// Refuses whatever he is asked for.
+!offer(Place)[source(Boss)] <- .send(Boss, tell, refusal(Place)).
