// A cleaner, as a beginner types it.
room(kitchen)
room(hall).
battery(99.5).
far(R) :- distance(R, D), D > 10.
!start.

@s[atomic] +!start : true <-
    .println("starting");
    .findall(R, room(R), Rooms);
    !clean_all(Rooms).

+!clean_all([]) <- .print('done').
+!clean_all([R|Rest]) : not far(R) <-
    ?battery(B);
    if (B < 20) { .print("low") };
    -+battery(B / 2)
    !clean_all(Rest).
+!clean_all([R|Rest]) -> .print(R, " is too far"; !clean_all(Rest).
