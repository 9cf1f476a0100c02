// Pays ten: looks at the balance, and sets it to ten more.

!pay.

+!pay : balance(B) <-
    set(B + 10);
    .print("paid on ", B).
