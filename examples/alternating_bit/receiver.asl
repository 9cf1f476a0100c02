// Takes an item where its bit is the one that is due, and sends each bit back.

due(0).

+!item(X, B)[source(Sender)] : due(B) <-
    -+due(1 - B);
    .print("got ", X);
    .send(Sender, achieve, received(B)).
+!item(_, B)[source(Sender)] <- .send(Sender, achieve, received(B)).
