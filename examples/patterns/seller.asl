+!offer(X)[source(A)] <- .send(A, tell, price(X, 4)).
