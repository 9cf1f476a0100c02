// clerk.asl: keeps the books

sum(0).

!open.

+!open
   <- .date(Y, M, D);
      .print("books of ", Y, "-", M, "-", D).

+booked(Id, sent_back)
   <- .print("sent back: " + Id).

@book[atomic]
+booked(Id, P)
   <- ?sum(S);
      -+sum(S + P);
      +entry(Id, P).

{ begin dg(balanced) }
+!balanced <- !check.
{ end }

+!check
   <- .findall(P, entry(_, P), L);
      S = math.sum(L);
      ?sum(T);
      if (S == T) { +balanced } else { .print("books differ: ", S, " ", T) }.

+!close_books
   <- !balanced;
      .findall(pair(P, Id), entry(Id, P), Pairs);
      .print("entries: ", Pairs);
      .max([d(1, a), d(3, c), d(2, b)], d(_, Best));
      .print("best month: ", Best);
      (!archive |&| !thank);
      .print("closed").

+!archive <- .print("archived").
+!thank   <- .broadcast(tell, thanks); .print("thanked").

+!kqml_received(Sender, tell, spam, _)
   <- .print("ignored spam of ", Sender).

-!G[error(E)]
   <- .print("failed: ", G, " with ", E).
