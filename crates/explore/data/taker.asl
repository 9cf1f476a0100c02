// Looks whether the thing is free, and takes it: when it is asked for, another one may have been quicker.

!get.

+!get : free <-
    take;
    .print("mine").

+!get <- .print("it is gone already").

-!get[error(action_failed)] <- .print("too late").
