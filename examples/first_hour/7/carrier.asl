!deliver(school).

way(From, To, To) :- street(From, To).
way(From, To, Next) :- street(From, Next) & way(Next, To, _).

+!deliver(Place) <- !reach(Place); .print("here is your parcel, ", Place).

+!reach(Place) : at(carrier, Place).
+!reach(Place) : at(carrier, Here) & way(Here, Place, Next) <- go(Next); !reach(Place).

-!reach(Place)[error(action_failed)] : at(carrier, Here) & way(Here, Place, Next) <-
    .print("a door at the ", Next);
    open(Next);
    !reach(Place).
