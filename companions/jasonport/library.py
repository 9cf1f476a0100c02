"""Rules and plans of Jason's library in jasonrun's language. What is used stands once at the end of a source, under a free name."""
from __future__ import annotations

import re
from dataclasses import dataclass, field

from .words import free_name

TEXTS = {
    "sort": """
sort([], []) :- true.
sort([X|R], S) :- sort(R, T) & insert(X, T, S).
insert(X, [], [X]) :- true.
insert(X, [Y|R], [X, Y|R]) :- X <= Y.
insert(X, [Y|R], [Y|S]) :- X > Y & insert(X, R, S).
""",
    "between": """
between(A, A, B) :- A <= B.
between(I, A, B) :- A < B & between(I, A + 1, B).
""",
    "delete": """
delete(_, [], []) :- true.
delete(X, [X|R], S) :- delete(X, R, S).
delete(X, [Y|R], [Y|S]) :- X \\== Y & delete(X, R, S).
""",
    "union": """
union([], M, M) :- true.
union([X|R], M, U) :- .member(X, M) & union(R, M, U).
union([X|R], M, [X|U]) :- not .member(X, M) & union(R, M, U).
""",
    "both": """
both([], _, []) :- true.
both([X|R], M, [X|B]) :- .member(X, M) & both(R, M, B).
both([X|R], M, B) :- not .member(X, M) & both(R, M, B).
""",
    "minus": """
minus([], _, []) :- true.
minus([X|R], M, D) :- .member(X, M) & minus(R, M, D).
minus([X|R], M, [X|D]) :- not .member(X, M) & minus(R, M, D).
""",
    "last": """
last([X], X) :- true.
last([_|R], X) :- last(R, X).
""",
    "flatten": """
flatten([], []) :- true.
flatten([X|R], F) :- .list(X) & flatten(X, A) & flatten(R, B) & .concat(A, B, F).
flatten([X|R], [X|F]) :- not .list(X) & flatten(R, F).
""",
    "append": """
append([], L, L) :- true.
append([X|R], L, [X|S]) :- append(R, L, S).
""",
    "prefix": "prefix(P, L) :- append(P, _, L).",
    "suffix": "suffix(S, L) :- append(_, S, L).",
    "sublist": "sublist(S, L) :- append(_, R, L) & append(S, _, R).",
    "abs": """
abs(X, X) :- X >= 0.
abs(X, Y) :- X < 0 & Y = -X.
""",
    "sum": """
sum([], 0) :- true.
sum([X|R], S) :- sum(R, T) & S = T + X.
""",
    "least": """
// the first with the least number of those made as the pattern: NAME(NUMBER, ..)
least([P], P) :- true.
least([P|R], L) :- least(R, M) & lesser(P, M, L).
lesser(P, M, P) :- key(P, A) & key(M, B) & A <= B.
lesser(P, M, M) :- key(P, A) & key(M, B) & A > B.
""",
    "greatest": """
greatest([P], P) :- true.
greatest([P|R], G) :- greatest(R, M) & greater(P, M, G).
greater(P, M, P) :- key(P, A) & key(M, B) & A >= B.
greater(P, M, M) :- key(P, A) & key(M, B) & A < B.
""",
    "given": """
// the second is the first, and a new one where that is unbound: each round of a loop has its own
given(X, X) :- .ground(X) | .list(X) | .literal(X).
given(X, _) :- not (.ground(X) | .list(X) | .literal(X)).
""",
    "pause": """
// a pause of so many turns of this intention
+!pause(N) : N > 0 <- !pause(N - 1).
+!pause(_).
""",
    "send_all": """
+!send_all([], _, _).
+!send_all([A|R], V, C) <- .send(A, V, C); !send_all(R, V, C).
""",
    "now": """
// a clock of its own: each time it is asked in a body it is a second later
clock(0).
now(H, M, S) :- clock(T) & H = (T div 3600) mod 24 & M = (T div 60) mod 60 & S = T mod 60.
+!now(H, M, S) <- ?now(H, M, S); ?clock(T); -+clock(T + 1).
""",
    "today": """
// the day of a run
today(2000, 1, 1).
""",
    "random": """
// X becomes a number from 0 to N - 1: the same ones at each run; another seed gives others
seed(42).
+!random(N, X) <- ?seed(S); T = (S * 1103515245 + 12345) mod 2147483648; -+seed(T); X = (T div 65536) mod N.
""",
    # names alone: their clauses depend on the source
    "key": "",
    "agent_name": "",
}
NEEDS = {"prefix": ["append"], "suffix": ["append"], "sublist": ["append"], "least": ["key"], "greatest": ["key"]}


def names_of(entry: str) -> list[str]:
    """The names that an entry defines."""
    return list(dict.fromkeys([entry, *re.findall(r"(?m)^\+?!?([a-z_]\w*)[(.]", TEXTS[entry])]))


@dataclass
class Additions:
    """What is added to a source: entries of the library, each name with the one that it has here, and further clauses. `taken` are the names
    of the source."""

    taken: set[str] = field(default_factory=set)
    entries: list[str] = field(default_factory=list)
    names: dict[str, str] = field(default_factory=dict)
    clauses: list[str] = field(default_factory=list)

    def fresh(self, name: str) -> str:
        """A name that is free, and taken from now on."""
        found = free_name(name, self.taken)
        self.taken.add(found)
        return found

    def use(self, entry: str) -> str:
        """The name of an entry in this source, where it stands from now on."""
        if entry not in self.entries:
            for needed in NEEDS.get(entry, []):
                self.use(needed)
            self.entries.append(entry)
            for name in names_of(entry):
                self.names[name] = self.fresh(name)
        return self.names[entry]

    def text(self) -> str:
        """What stands at the end of the source, or nothing."""
        found = [self.renamed(TEXTS[entry].strip("\n")) for entry in self.entries if TEXTS[entry]]
        return "\n".join(found + list(dict.fromkeys(self.clauses)))

    def renamed(self, text: str) -> str:
        for name, here in self.names.items():
            if name != here:
                text = re.sub(rf"(?<![\w.]){name}(?=\()", here, text)
        return text
