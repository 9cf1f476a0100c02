// Pays ten: looks at the balance, and changes it where it is still the one that was seen. Else looks again.

!pay.

+!pay : balance(B) <-
    change(B, B + 10);
    .print("paid").

-!pay <- !pay.
