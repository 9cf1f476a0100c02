// Looks whether the thing is free, and takes it: whoever comes too late looks once more.

!get.

+!get : free <-
    take;
    .print("mine").

+!get <- .print("it is gone already").

-!get[error(action_failed)] <- !get.
