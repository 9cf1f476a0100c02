// Burns what is dropped at its place.

+garbage(G) <- burn(G); .print(G, " is burnt").
