// Takes part, and refuses every task.

!introduce.

+!introduce : .my_name(Me) <- .send(initiator, tell, introduction(participant, Me)).

+cfp(Id, _)[source(A)] <- .send(A, tell, refuse(Id)).
