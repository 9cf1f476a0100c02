// Offers ten more than anybody else, up to a limit.

+best(Price, Who) : .my_name(Me) & not Who = Me & limit(L) & Price + 10 <= L <- !offer(Price + 10).

+!offer(Price) <- offer(Price).

// Another one was quicker: the next best offer is seen in the next cycle, and answered by the first plan.
-!offer(_)[error(action_failed)].
