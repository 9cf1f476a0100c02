// dispatcher.asl: announces parcels, one after the other

{ include("common.asl") }

/* beliefs */
parcel(p1, 3, 4, 2).
parcel(p2, 1, 1, 5).
parcel(p3, 0, 6, 1).
parcel(p4, 6, 6, 9).
max_weight(8).
late_fee(0.5).
fee(standard, 1.5).
fee(express, 2.5).

/* goals */
!work.

/* plans */
+!work
   <- .print("good morning");
      .wait(500);
      .findall(Id, parcel(Id, _, _, _), All);
      .sort([3, 1, 2], Order);
      .print("parcels: ", All, " in turns ", Order);
      for ( .member(Id, All) ) {
         !handle(Id)
      }
      !summary;
      .send(clerk, achieve, close_books).

// too heavy ones are sent back
+!handle(Id)
    : parcel(Id, _, _, W) & max_weight(M) & W > M
   <- .print(Id, " is too heavy: " , W, " > ", M);
      +sent_back(Id);
      .send(clerk, tell, booked(Id, sent_back)).

+!handle(Id)
    : parcel(Id, X, Y, W)
   <- .findall(C, introduced(C), Couriers);
      .length(Couriers, N);
      if (N == 0) {
         .print("no courier is there");
         .wait(1000);
         !handle(Id)
      } else {
         .send(Couriers, tell, cfp(Id, X, Y));
         !collect(Id, N, 3000);
         .findall(offer(P, A), propose(Id, P)[source(A)], Offers);
         !award(Id, Offers)
      }.

+!award(Id, []) 
   <- .print("nobody wants ", Id);
      +open(Id).

+!award(Id, Offers)
   <- ?cheapest(Offers, Winner, Price);
      .print(Id, " goes to ", Winner, " for ", Price);
      -+given(Id, Winner);
      for ( .member(offer(P, A), Offers) ) {
         if (A == Winner) {
            .send(A, tell, accept(Id))
         } else {
            .send(A, tell, reject(Id))
         }
      };
      .send(clerk, tell, booked(Id, Price));
      // wait until the parcel is there
      .wait({ +delivered(Id) }, 20000, Elapsed);
      .print(Id, " was on its way for about ", Elapsed).

// a fee by kind, with a default
+?fee_of(Kind, F) : fee(Kind, F).
+?fee_of(_, F) <- ?fee(standard, F).

+!summary
   <- .count(delivered(_), D);
      .count(sent_back(_), B);
      .print("delivered: ", D, ", sent back: ", B);
      ?fee_of(unknown, F);
      if (F > 2.0) { .print("dear") } elif (F > 1.0) { .print("fair") } else { .print("cheap") }.

+hello[source(A)]
   <- +introduced(A).

+delivered(Id)[source(A)]
   <- .print(A, " delivered ", Id).
