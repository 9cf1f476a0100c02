// grüße
!hi.
+!hi <- .send(Bob, tell, hi); !grüße.
