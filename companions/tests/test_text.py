"""Problems' texts, read back; mutated ones give the program's own fault or an equal reading."""

import random
import unittest

import support
from qyas_companions import text
from qyas_companions.faults import Fault, Limit, NumberLeaves, ProgramFault, TextFault
from qyas_companions.program import solve_text

FAULTS = {
    b"MAX 2*x": "text 1 6 byte",
    b"MAX ST x <= 2 y": "text 1 15 expected line end",
    b"MAX 1e39": "text 1 5 number",
    b"MAX ST EXISTS u ALL u ORDER u END": "text 1 21 both u",
    b"MAX ST BINARIES u ORDER u u END": "text 1 27 twice u",
    b"MAX ST ORDER u END": "text 1 14 unknown u",
    b"MAX u ST ORDER END": "text 1 5 unordered u",
    b"MAX ST BOUNDS x FREE ORDER x END": "text 1 15 infinite x",
    b"MAX x ST ORDER x END": "text 1 16 upper x",
    b"MAX ST BOUNDS x <= 1 ALL x ORDER x END": "text 1 34 universal x",
    b"MAX ST BOUNDS x <= 1 BINARIES u ALL u ORDER x u END": "text 1 45 early x",
    b"MAX ST UNCERTAINTY ST x <= 1\nBINARIES x ORDER x END": "text 1 23 uncertain x",
    b"": "text 1 1 expected sense",
}
SAME = [
    b"max ST x<=1 c:x>=0\nBINARIES x ORDER x END",
    b"Maximize o: 2x - - 3 y + 1 - .5 Subject To\n- x + 2e1y =< 5.\nBOUNDS 1 <= x <= 3\ny = 2\nGENERAL x y ORDER y x END",
    b"MIN \\ a comment\n ST c\n: x >= 1 BINARY x x ORDER x END \\ end",
]

SMALL = ["crew-after", "crew-before", "projects", "dosing", "fleet", "surge", "promises", "orders", "machines"]


class TextTest(unittest.TestCase):
    def test_faults_are_the_programs_own(self) -> None:
        for data, line in FAULTS.items():
            with self.assertRaises(TextFault, msg=data) as caught:
                text.read(data)
            self.assertEqual(str(caught.exception), line)
        with self.assertRaises(Limit) as limit:
            text.read(b"MAX ST BINARIES u ORDER u END".ljust(text.MOST_BYTES + 1))
        self.assertEqual(str(limit.exception), "limit problem")

    def test_texts_are_read_and_written_again(self) -> None:
        for data in SAME + [path.read_bytes() for path in support.EXAMPLES]:
            program = text.read(data)
            again = text.read(program.text().encode())
            self.assertEqual(again.described(), program.described())

    def test_rows_know_their_places(self) -> None:
        rows = text.read(SAME[0]).rows
        self.assertEqual([(row.line, row.source) for row in rows], [(1, "x<=1"), (1, "c:x>=0")])

    def test_mutated_texts_are_read_as_the_program_reads_them(self) -> None:
        chance = random.Random(7)
        for turn in range(200):
            data = mutated(chance, support.example(chance.choice(SMALL)).read_bytes())
            try:
                program = text.read(data)
            except ProgramFault:
                self.fail(f"turn {turn}: the program reads what the companions don't: {data!r}")
            except Fault:
                continue
            self.assertEqual(first_line(data), first_line(program.text().encode()), data)


def first_line(data: bytes) -> str:
    """How a text's game ends, or its limit."""
    try:
        with solve_text(data) as output:
            return output.readline().decode()
    except (Limit, NumberLeaves) as fault:
        return str(fault)


def mutated(chance: random.Random, data: bytes) -> bytes:
    """A text with some words or bytes changed, or lines swapped."""
    words = data.replace(b"\n", b" \n ").split(b" ")
    for _ in range(chance.randrange(1, 3)):
        at, other = chance.randrange(len(words)), chance.randrange(len(words))
        kind = chance.randrange(5)
        if kind == 0:
            del words[at]
        elif kind == 1:
            words[at] = words[other]
        elif kind == 2:
            words.insert(at, words[other])
        elif kind == 3:
            words[at] = chance.choice([b"2", b"-", b"+", b"<=", b"1e400", b"ORDER", b"x", b"\xff", b":", b"FREE", b"1/2"])
        else:
            words[at : at + 1] = [words[at][:1], words[at][1:]]
    return b" ".join(words)


if __name__ == "__main__":
    unittest.main()
