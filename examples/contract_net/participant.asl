// Offers to do a task for a price. The three participants share this source; each finds its price by its name.

price(p1, fix(computer), 120).
price(p2, fix(computer), 90).
price(p3, fix(computer), 105).

!introduce.

+!introduce : .my_name(Me) <- .send(initiator, tell, introduction(participant, Me)).

@call
+cfp(Id, Task)[source(A)] : .my_name(Me) & price(Me, Task, Price) <-
    +proposal(Id, Task, Price);
    .send(A, tell, propose(Id, Price)).

@won
+accept_proposal(Id) : proposal(Id, Task, Price) <- .print("I do ", Task, " for ", Price).

@lost
+reject_proposal(Id) <- .print("my proposal was not taken"); .abolish(proposal(Id, _, _)).
