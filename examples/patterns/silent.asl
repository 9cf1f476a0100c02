+!offer(_).
