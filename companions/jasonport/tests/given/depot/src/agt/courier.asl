// courier.asl: takes parcels to their addresses

{ include("common.asl") }

battery(20).
trips(0).
pos(0, 0).

!start.

+!start : .my_name(Me)
   <- .print("ready");
      .send(dispatcher, tell, hello);
      .concat("courier ", Me, Name);
      +label(Name).

// --- contract net

price(X, Y, P) :-
    pos(X0, Y0) & distance(X0, Y0, X, Y, D) & trips(T) &
    P = D * 10 + T.

@answer[atomic]
+cfp(Id, X, Y)[source(Boss)]
    : price(X, Y, P) & battery(B) & B * 10 >= P
   <- +bid(Id, X, Y, P);
      .send(Boss, tell, propose(Id, P)).

+cfp(Id, _, _)[source(Boss)]
   <- .send(Boss, tell, refuse(Id));
      !!charge.

+accept(Id)[source(Boss)]
    : bid(Id, X, Y, _)
   <- !deliver(Id, X, Y, Boss).

+reject(Id)
   <- -bid(Id, _, _, _).

// --- delivery

+!deliver(Id, X, Y, Boss)
   <- load(Id);
      !go(X, Y);
      unload(Id);
      -bid(Id, X, Y, _);
      ?trips(N);
      -+trips(N + 1);
      .send(Boss, tell, delivered(Id)).

-!deliver(Id, X, Y, Boss)[error(E), error_msg(M)]
   <- .print("could not deliver ", Id, ": ", M);
      .send(Boss, tell, failed(Id)).

// street by street
+!go(X, Y)
   <- while ( pos(A, B) & (A \== X | B \== Y) ) {
         if (A < X) {
            !step(A + 1, B)
         } elif (A > X) {
            !step(A - 1, B)
         } elif (B < Y) {
            !step(A, B + 1)
         } else {
            !step(A, B - 1)
         }
      }.

+!step(X, Y) : battery(0)
   <- !charge;
      !step(X, Y).
+!step(X, Y) : battery(B)
   <- drive(X, Y);
      -+pos(X, Y);
      -+battery(B - 1).

// --- charging

+!charge : battery(B) & B > 15.
+!charge
   <- .send(station, askOne, free(S), free(S));
      .print("charging at ", S);
      .wait(200);
      -+battery(20).
-!charge
   <- .wait(300);
      !charge.
