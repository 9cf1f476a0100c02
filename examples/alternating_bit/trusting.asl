// Takes each item that comes, and sends its bit back.

+!item(X, B)[source(Sender)] <-
    .print("got ", X);
    .send(Sender, achieve, received(B)).
