"""The grammar and the printer."""
from __future__ import annotations

import unittest

from .. import tree
from ..grammar import Parser, read_clauses
from ..lexer import Fault
from ..pieces import Piece, Printer, faults_of_pieces
from . import cases


def texts() -> list[str]:
    found = [text for case in cases.all_cases() for name, text in case.files.items() if name.endswith(".asl")]
    return found + [path.read_text(encoding="utf-8") for path in sorted((cases.TOP / "examples").glob("**/*.asl"))]


class Grammar(unittest.TestCase):
    def test_printed_as_it_stands(self) -> None:
        """What is not written anew is printed byte for byte, and parts stand in their wholes, one behind the other."""
        for text in texts():
            printer = Printer(text)
            for clause in read_clauses(text)[0]:
                if "()" not in printer.original(clause) and printer.original(clause).isascii():
                    self.assertEqual(printer.text(clause), printer.original(clause))
                for node in clause.walk():
                    place = node.start
                    for part in node.parts():
                        self.assertLessEqual(place, part.start)
                        place = part.end
                    self.assertLessEqual(place, node.end)

    def test_body(self) -> None:
        plan = Parser("+!g : a & not b <- !h; if (c) { ?d } +e.").clause()
        self.assertIsInstance(plan, tree.Plan)
        kinds = [type(item).__name__ for item in plan.body.items]
        self.assertEqual(kinds, ["Item", "If", "Item"])
        self.assertEqual([item.sign for item in plan.body.items if isinstance(item, tree.Item)], ["!", "+"])

    def test_ladder(self) -> None:
        rule = Parser("p :- a | b & not c = 1 + 2 * X ** 3.").clause()
        self.assertEqual([type(it).__name__ for it in rule.body.walk()][:4], ["Chain", "Literal", "Chain", "Literal"])
        self.assertEqual(tree.variables(rule), ["X"])

    def test_faults(self) -> None:
        for text, place, told in (
            ('p("a).', 2, "not closed"),
            ("p. /* x", 3, "not closed"),
            ("+!g <- a b.", 9, "';' is missing before 'b'"),
            ("p(1", 3, "missing at the end"),
            ("p :- " + "(" * 300, 256, "more than 250 levels"),
            ("p :- a" + " & a" * 300 + ".", 5, "more than 250 parts"),
        ):
            with self.subTest(text[:20]):
                with self.assertRaises(Fault) as found:
                    Parser(text).agent()
                self.assertIn(told, found.exception.text)
                self.assertAlmostEqual(found.exception.place, place, delta=1)

    def test_what_follows_a_fault_is_read(self) -> None:
        clauses, broken = read_clauses("p. q r. s.")
        self.assertEqual((len(clauses), [(start, end) for start, end, _ in broken]), (2, [(3, 7)]))


class Pieces(unittest.TestCase):
    def test_a_change_without_a_note_is_found(self) -> None:
        whole = [Piece(0, 2, "p."), Piece(2, 3, " "), Piece(3, 5, "q.")]
        self.assertEqual(faults_of_pieces("p. q.", whole, set()), [])
        changed = [Piece(0, 2, "p."), Piece(2, 3, " "), Piece(3, 5, "r.")]
        self.assertEqual(faults_of_pieces("p. q.", changed, set()), [3])
        self.assertEqual(faults_of_pieces("p. q.", changed, {4}), [])
        self.assertEqual(faults_of_pieces("p. q.", whole[:2], set()), [3])


if __name__ == "__main__":
    unittest.main()
