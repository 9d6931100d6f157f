#!/usr/bin/env python3
"""Writes crates/known/stdin, the cases that the program `known` runs, and crates/known/stdout, the lines that it has to print.
With --check it writes nothing, looks at each case of the two files, and counts; folders after it are looked at instead of crates/known,
with a count for each.

The lines come from meaning.py, which evaluates the definitions. What was known of a page beforehand, from the papers or by hand, stands
in the calls of `said` below, and has to agree with them. The engine is not asked.
"""
import importlib.util
import pathlib
import struct
import sys

sys.dont_write_bytecode = True  # the tests leave nothing behind in the repository
import meaning

TOP = pathlib.Path(__file__).resolve().parents[2]
ROOM = 65536  # entries for sets; what a list does not store there keeps its content
DEGREES = 34  # entries for degrees; each is 9 before the call


def examples():
    """examples/make.py, which makes pages of words."""
    spec = importlib.util.spec_from_file_location("examples", TOP / "examples" / "make.py")
    module = importlib.util.module_from_spec(spec)
    spec.loader.exec_module(module)
    return module


EXAMPLES = examples()
LETTERS = "abcdefghijklmnop"
CASES = []


class Case:
    """A named page with a flag word, the calls on it, and the lines that they print."""

    def __init__(self, name, data, flags=0):
        self.name, self.flags, self.page = name, flags, meaning.Page(data)
        self.calls, self.lines = [], [f"{name}, flags {flags}"]
        self.found = self.winners = None
        CASES.append(self)

    def add(self, letter, first, second, line):
        self.calls.append(struct.pack("<cHH", letter, first, second))
        self.lines.append("  " + line)

    def record(self):
        """The case as it stands in the input."""
        name = self.name.encode()
        data = self.page.data
        return bytes([len(name)]) + name + struct.pack("<HH", self.flags, len(data)) + data + bytes([len(self.calls)]) + b"".join(self.calls)

    def text(self):
        return "".join(line + "\n" for line in self.lines)

    # ---- refusals and answers
    def number(self, *more):
        """The lowest that holds: the page's, then 9 for the flag word, then those of the call, each a number and whether it holds."""
        conditions = [(9, self.page.out(self.flags)), *more]
        return self.page.number or next((number for number, holds in conditions if holds), 0)

    def set_number(self, *sets):
        return self.number((9, self.page.out(*sets)))

    def sets(self):
        if self.found is None:
            self.found = meaning.answers(self.page, self.flags) if self.number() == 0 else []
        return self.found

    def best_sets(self):
        if self.winners is None:
            self.winners = meaning.best(self.page, self.flags, self.sets())
        return self.winners

    def is_answer(self, s):
        return meaning.is_answer(self.page, self.flags, s)

    # ---- the calls
    def stored(self, letter, word, sets, room):
        number = self.number((11, room < len(sets)))
        sets = sets if number == 0 else []
        if len(sets) <= 8:
            shown = "".join(f" {s}" for s in sets)
        else:
            total = 0
            for s in sets:
                total = (31 * total + s) % 65521
            shown = "".join(f" {s}" for s in sets[:4]) + " .." + "".join(f" {s}" for s in sets[-4:]) + f", sum {total}"
        self.add(letter, room, 0, f"{word} into {room}: number {number}, count {len(sets)}, sets{shown}, kept {ROOM - len(sets)}")

    def list(self, room=65535):
        self.stored(b"l", "list", self.sets(), room)

    def best(self, room=65535):
        self.stored(b"b", "best", self.best_sets(), room)

    def degrees(self, s, room=32):
        number = self.set_number(s)
        number = number or self.number((11, room < len(self.page.rows)), (13, not self.is_answer(s)))
        found = meaning.degrees(self.page, s) if number == 0 else []
        memory = "".join(map(str, found)).ljust(DEGREES, "9")
        self.add(b"d", s, room, f"degrees of {s} into {room}: number {number}, count {len(found)}, memory {memory}")

    def test(self, letter, word, s, yes):
        number = self.set_number(s)
        self.add(letter, s, 0, f"{word} test of {s}: number {number}, {'yes' if number == 0 and yes(self.page, self.flags, s) else 'no'}")

    def reduct(self, s):
        self.test(b"r", "reduct", s, meaning.is_answer)

    def rounds(self, s):
        number = self.set_number(s)
        count = meaning.rounds_to(self.page, self.flags, s) if number == 0 else 0
        self.add(b"n", s, 0, f"rounds to {s}: number {number}, count {count}")

    def here_there(self, s):
        self.test(b"h", "here-and-there", s, meaning.is_here_there)

    def split(self, s):
        number = self.set_number(s) or self.number((12, meaning.split_programs(self.page) > 4096))
        count = int(meaning.split_count(self.page, self.flags, s)) if number == 0 else 0
        self.add(b"s", s, 0, f"split test of {s}: number {number}, {'yes' if count else 'no'}, count {count}")

    def three(self):
        """The three tests of every set agree."""
        below = 1 << self.page.atoms
        for s in range(below):
            ways = (self.is_answer(s), meaning.is_here_there(self.page, self.flags, s), meaning.split_count(self.page, self.flags, s) > 0)
            assert len(set(ways)) == 1, (self.name, s, ways)
        self.add(b"t", below, 0, f"three tests of {below} sets: agreed {below}, yes {len(self.sets())}")

    def compare(self, first, second):
        number = self.set_number(first, second) or self.number((13, not (self.is_answer(first) and self.is_answer(second))))
        side = "0"
        if number == 0:
            m, n = (meaning.rows_by_degree(self.page, self.flags, s) for s in (first, second))
            side = "+1" if meaning.is_preferred(m, n) else "-1" if meaning.is_preferred(n, m) else "0"
        self.add(b"c", first, second, f"compare {first} with {second}: number {number}, side {side}")

    def pick(self):
        winners = self.best_sets()
        number = self.number((10, not winners))
        self.add(b"p", 0, 0, f"pick: number {number}, set {winners[0] if number == 0 else 0}")

    def rows(self, below):
        """The row reader at the numbers below this one."""
        self.calls.append(struct.pack("<cHH", b"w", below, 0))
        place = 18 + 4 * len(self.page.rows)
        for n in range(below):
            if self.page.number == 0 and n < len(self.page.rows):
                counts = list(map(len, self.page.rows[n]))
                self.lines.append("  row {}: head {}, positive {}, negative {}, first literal at {}".format(n, *counts, place))
                place += sum(counts)
            else:
                self.lines.append(f"  row {n}: past")

    def letter(self, number):
        self.add(b"L", number, 0, f'letter of {number}: "{meaning.letter(number)}"')

    def every_call(self, s=0):
        """Each call once, with room for what it stores."""
        self.list()
        self.best()
        self.pick()
        self.degrees(s)
        self.compare(s, s)
        self.reduct(s)
        self.rounds(s)
        self.here_there(s)
        self.split(s)
        self.rows(1)

    def chain(self, wanted):
        """The rounds to some sets, and how many there are known to be."""
        for s, want in wanted.items():
            self.rounds(s)
            assert self.lines[-1].endswith(f"number 0, count {want}"), (self.name, s)

    def said(self, sets=None, pick=None, degrees=(), compare=(), split=(), not_answers=(), rounds=()):
        """What is known of this page beforehand; the definitions have to give the same. Its calls are run."""
        self.list()
        self.best()
        self.pick()
        if sets is not None:
            assert self.sets() == sets, (self.name, self.sets())
        if pick is not None:
            assert self.best_sets()[:1] == [pick], self.name
        for s in self.sets():
            self.degrees(s)
        for s, want in dict(degrees).items():
            assert meaning.degrees(self.page, s) == want, (self.name, s)
        for first, second, side in compare:
            self.compare(first, second)
            assert self.lines[-1].endswith(f"side {side}"), (self.name, first, second)
            self.compare(second, first)
        for s, want in dict(split).items():
            self.split(s)
            assert meaning.split_count(self.page, self.flags, s) == want, (self.name, s)
        for s in not_answers:
            self.reduct(s)
            assert not self.is_answer(s), (self.name, s)
        self.chain(dict(rounds))
        below = 1 << self.page.atoms
        for s in sorted({*self.sets(), *not_answers, 0, below - 1, below} - {*dict(rounds)}):
            self.rounds(s)  # to the answer sets and to others, all atoms and one out of range among them
        self.three()
        self.rows(len(self.page.rows) + 1)
        return self


def page(atoms, *rows, pairs=()):
    """A page in words; the atoms are the first so many letters."""
    return EXAMPLES.page_bytes(LETTERS[:atoms], rows, pairs)


def with_word(data, at, value):
    """A page with another word at a place of its header."""
    return data[:at] + struct.pack("<H", value) + data[at + 2:]


def with_byte(data, at, value):
    return data[:at] + bytes([value]) + data[at + 1:]


def known_pages():
    """The pages with known results; the first twelve are those of crates/lpod/proofs/KnownPages.antt."""
    case_1 = Case("case 1", EXAMPLES.pages["two"])
    assert case_1.page.data.hex() == "010002000100020000001200160018001800" "020000000001"
    case_1.said([1, 2], pick=1, split={1: 1, 2: 1}, compare=[(1, 2, "+1"), (1, 1, "0")])
    assert meaning.split_programs(case_1.page) == 2
    Case("case 2", page(4, "a x b if not c", "b x c if not d")).said(
        [2, 3, 4], pick=3, degrees={2: [2, 1], 3: [1, 1], 4: [1, 2]}, compare=[(2, 4, "0"), (3, 4, "+1")])
    case_3 = Case("case 3", page(5, "a x b if c, not d", "d x a if not b", "d x e if not a")).said(not_answers=[6, 0])
    assert meaning.reduct(case_3.page.rows, 6) == [(1, [2])]
    assert meaning.least(meaning.reduct(case_3.page.rows, 0)) == 0
    assert [meaning.satisfied(row, 0) for row in case_3.page.rows] == [True, False, False]
    Case("case 4", EXAMPLES.pages["car"]).said([18, 25], pick=18, compare=[(18, 25, "0")], rounds={18: 1, 25: 2})
    Case("case 5", page(2, "a x b", "b")).said([2, 3], pick=3)
    case_6 = Case("case 6", EXAMPLES.pages["never"]).said([])
    case_6.list(0)  # none into none: accepted
    case_6.best(0)
    Case("case 7", page(1)).said([0], pick=0)
    Case("case 8", page(1, "no head")).said([])
    Case("case 9", page(2, "a x b", "no head if a")).said([2], pick=2)
    case_10 = Case("case 10", page(2, "a if b", "b if a")).said([0], pick=0, not_answers=[3], rounds={0: 0, 3: 0})
    assert all(meaning.satisfied(row, 3) for row in case_10.page.rows)
    case_11 = Case("case 11", page(2, "a x b x a")).said([1, 2], split={1: 1, 2: 1})
    assert meaning.split_programs(case_11.page) == 3
    for flags, sets, pick in (0, [1, 2, 4, 8], 1), (16, [18, 20, 24], 18), (48, [52, 56], 52):
        Case("case 12", EXAMPLES.pages["train"], flags).said(sets, pick=pick)
    Case("case 13", page(5, "a x b x c", "d x e", "no head if b", "no head if a, d", "no head if c, e")).said(
        [12, 17], pick=12, degrees={12: [3, 1, 1, 1, 1], 17: [1, 2, 1, 1, 1]}, compare=[(12, 17, "0")])


def chains():
    """How many rounds it takes. The rows fire together in each, and those of the raised atoms are among them."""
    steps = EXAMPLES.pages["steps"]
    assert steps == page(3, "a", "b if a", "c if b")
    three = Case("a chain of three", steps).said([7], pick=7, rounds={7: 3, 6: 0, 5: 1, 3: 2, 1: 1})
    for s in (9, 15, 32775, 65535):
        three.rounds(s)
        assert three.set_number(s) == 9
    Case("a chain of three, the second raised", steps, 2).said([7], pick=7, rounds={7: 2, 6: 2, 3: 1, 2: 1, 5: 1, 1: 1, 4: 0})
    Case("a chain of three, the last raised", steps, 4).said([7], pick=7, rounds={7: 2, 3: 2, 6: 1, 4: 1})
    Case("a raised atom without a row", page(4, "a", "b if a"), 8).said([11], pick=11, rounds={11: 2, 3: 2, 10: 1, 2: 0})
    Case("all in the first round", page(4, "a", "b x a", "c if not d", "d x c if not c")).said(rounds={7: 1, 15: 1, 11: 1})
    Case("the shorter of two ways", page(3, "a", "b if a", "c if b", "c")).said([7], rounds={7: 2, 5: 1})
    Case("two reasons, the later counts", page(4, "a", "b if a", "c if a, d", "d if b")).said([15], rounds={15: 4, 7: 2, 13: 1})
    Case("a ring with a way in", page(3, "a if c", "b if a", "c if b", "b")).said([7], rounds={7: 3, 5: 0})
    Case("a later place of a head", page(3, "a", "b x c if a", "a if c")).said([3, 5], rounds={3: 2, 5: 2, 7: 2, 6: 0})
    Case("a chain that holds a pair", page(2, "a", "b if a", pairs=["ab"])).said([], rounds={3: 2, 1: 1})
    Case("a chain that breaks a row", page(2, "a", "b if a", "no head if b")).said([], rounds={3: 2})
    Case("a chain with a negative body", page(3, "a", "b if a, not c", "c if b")).said([], rounds={3: 2, 7: 1, 5: 1})
    links = ["a"] + [f"{LETTERS[i]} if {LETTERS[i - 1]}" for i in range(1, 16)]
    whole, no_first, no_last, no_middle = 65535, 65534, 32767, 65279
    Case("sixteen in a chain, rows in order", page(16, *links)).chain({whole: 16, no_first: 0, no_last: 15, no_middle: 8})
    Case("sixteen in a chain, rows against the order", page(16, *links[::-1])).chain({whole: 16, no_first: 0, no_last: 15, no_middle: 8})
    Case("sixteen in a chain, the first raised", page(16, *links[:0:-1]), 1).chain({whole: 16, no_first: 0, no_last: 15, no_middle: 8})
    Case("sixteen in a chain, the middle raised", page(16, *links[::-1]), 256).chain({whole: 8, no_first: 8, no_last: 8, no_middle: 8})
    Case("sixteen in the first round", page(16, *LETTERS)).chain({whole: 1, no_first: 1, 0: 0})
    Case("sixteen raised", page(16), 65535).chain({whole: 1, no_first: 1, 0: 0})


def large_pages():
    """Pages with many sets."""
    rings = Case("case 14", EXAMPLES.pages["rings"])
    groups = [0x3f, 0xfc0, 0xf000]
    assert rings.sets() == [s for s in range(65536) if all(s & group for group in groups)] and len(rings.sets()) == 63 * 63 * 15
    rings.list()
    rings.list(59535)
    rings.list(59534)  # one too few
    rings.best()
    assert rings.best_sets() == [65535]
    rings.pick()
    rings.degrees(65535)
    rings.degrees(4161)
    rings.compare(65535, 4161)
    rings.reduct(4161)
    rings.reduct(4160)
    rings.chain({65535: 1, 4161: 1, 0: 0})
    rings.here_there(4161)
    rings.split(4161)  # far more than 4,096 split programs
    wishes = Case("fifteen wishes", EXAMPLES.pages["wishes"])
    assert len(wishes.sets()) == 32768 and wishes.best_sets() == [65535]
    wishes.list(32768)
    wishes.list(32767)  # one too few
    wishes.best(1)
    wishes.best(0)
    wishes.pick()
    equals = Case("all of them best", EXAMPLES.pages["equals"])
    groups = [0x3f, 0xfc0, 0x7000]
    assert equals.sets() == [s for s in range(32768) if all(s & group for group in groups)] and len(equals.sets()) == 63 * 63 * 7
    # In every set 16 rows have degree 1, and in no two sets the same ones: none is preferred. To try each with each would take long.
    firsts = [frozenset(meaning.rows_by_degree(equals.page, 0, s)[0]) for s in equals.sets()]
    assert {len(rows) for rows in firsts} == {16} and len(set(firsts)) == len(firsts)
    equals.winners = equals.sets()
    equals.list(27783)
    equals.best(27783)
    equals.best(27782)  # one too few
    equals.pick()
    equals.degrees(4161)
    equals.compare(4161, 32767)


def edges():
    """The ends of the ranges, each side of every one of them."""
    two = EXAMPLES.pages["two"]
    bare = page(1)
    Case("sixteen atoms", page(16)).every_call()
    Case("seventeen atoms", with_word(bare, 2, 17)).every_call()
    Case("no atoms", with_word(bare, 2, 0)).every_call()
    Case("256 atoms", with_word(bare, 2, 256)).every_call()
    rows_32 = page(2, *["a x b"] * 10, *["a"] * 22)
    at_32 = Case("thirty-two rows", rows_32)
    at_32.list()
    at_32.pick()
    at_32.degrees(1)
    at_32.degrees(1, 31)
    at_32.rows(34)
    Case("thirty-three rows", page(2, *["a"] * 33)).every_call()
    six = Case("six alternatives", page(6, "a x b x c x d x e x f"))
    six.list()
    six.pick()
    six.degrees(32)
    six.split(32)
    Case("seven alternatives", page(7, "a x b x c x d x e x f x g")).every_call()
    Case("eight in each body", page(16, "a if " + ", ".join(LETTERS[:8]) + "".join(f", not {a}" for a in LETTERS[8:]))).every_call()
    Case("nine in a positive body", page(16, "a if " + ", ".join(LETTERS[:9]))).every_call()
    Case("nine in a negative body", page(16, "a if " + ", ".join(f"not {a}" for a in LETTERS[:9]))).every_call()
    fours = ["a x b x c x d", "b x c x d x a", "c x d x a x b", "d x a x b x c", "a x c x b x d", "b x d x a x c"]
    at_4096 = Case("4,096 split programs", page(4, *fours))
    for s in (0, 1, 7, 15):
        at_4096.split(s)
    over_4096 = Case("8,192 split programs", page(4, *fours, "a x b"))
    over_4096.split(15)
    over_4096.reduct(15)
    over_4096.rounds(15)
    over_4096.here_there(15)
    Case("the last atom raised", EXAMPLES.pages["train"], 32).every_call(33)
    Case("an atom raised that is not there", EXAMPLES.pages["train"], 64).every_call()
    Case("bit 15 of sixteen atoms raised", page(16, "p x a"), 32768).every_call(32768)
    Case("bit 15 of fifteen atoms raised", page(15, "a"), 32768).every_call()
    rooms = Case("two sets into two entries, one, none", two)
    for room in (3, 2, 1, 0):
        rooms.list(room)
    rooms.best(1)
    rooms.best(0)
    rooms.degrees(1, 1)
    rooms.degrees(1, 0)
    given = Case("given sets", two)
    for s in (3, 4, 65535):
        given.degrees(s)
        given.reduct(s)
        given.rounds(s)
        given.here_there(s)
        given.split(s)
        given.compare(s, 1)
        given.compare(1, s)
    given.degrees(3, 0)  # too short, and no answer set: 11 comes before 13
    Case("both atoms of a pair raised", page(2, pairs=["ab"]), 3).every_call(3)
    Case("a raised atom of a head", page(2, "a x b"), 2).said([2, 3])
    Case("a head with an atom twice", page(2, "a x a x b")).said([1, 2], degrees={1: [1], 2: [3]})
    Case("a row pasted", page(2, "a x b", "a x b")).said([1, 2], split={1: 3, 2: 1})
    Case("an atom in both bodies", page(2, "a if b, not b", "b")).said([2])


def lengths():
    """Pages that are too short, too long, or just long enough."""
    two = EXAMPLES.pages["two"]
    Case("no bytes", b"").every_call()
    Case("seventeen bytes", page(1)[:17]).every_call()
    Case("eighteen bytes", page(1)).every_call()
    longest = EXAMPLES.pages["longest"]
    assert len(longest) == 866
    Case("866 bytes", longest).every_call()
    Case("867 bytes", longest + b"\0").every_call()
    Case("one byte after the page", two + b"\0").every_call()
    Case("the last byte missing", two[:-1]).every_call()


def faults():
    """Each fault alone, then several at once: the lowest number is given."""
    two = EXAMPLES.pages["two"]
    car = EXAMPLES.pages["car"]
    bodies = page(4, "a if b, c, not a, not d")
    pairs = page(6, "a", pairs=["ab", "cd"])
    body_at, pair_at = len(bodies) - 4, len(pairs) - 4
    alone = [
        ("form 0", with_word(two, 0, 0), 2), ("form 2", with_word(two, 0, 2), 2), ("form 257", with_word(two, 0, 257), 2),
        ("705 literals", with_word(two, 6, 705), 3), ("nine pairs", with_word(two, 8, 9), 3),
        ("rows one byte late", with_word(two, 10, 19), 4), ("literals one byte late", with_word(two, 12, 23), 4),
        ("pairs one byte late", with_word(two, 14, 25), 4), ("a length of 25", with_word(two, 16, 25), 4),
        ("a fourth byte of 1", with_byte(two, 21, 1), 5), ("a literal too many", with_byte(two, 18, 1), 5),
        ("a literal too few", with_byte(two, 18, 3), 5),
        ("an atom out of range in a head", with_byte(two, 23, 2), 6), ("an atom out of range in a pair", with_byte(car, len(car) - 1, 5), 6),
        ("a positive body that stays", with_byte(bodies, body_at + 1, 1), 7), ("a negative body that falls", with_byte(bodies, body_at + 2, 3), 7),
        ("a pair of one atom", with_byte(pairs, pair_at + 1, 0), 8), ("a pair turned round", pairs[:-2] + bytes([3, 2]), 8),
        ("pairs that do not rise", pairs[:-4] + bytes([2, 3, 0, 1]), 8), ("an atom in two pairs", with_byte(pairs, pair_at + 2, 1), 8),
        ("an atom second in two pairs", with_byte(pairs, pair_at + 3, 1), 8),
    ]
    for name, data, number in alone:
        case = Case(name, data)
        assert case.page.number == number, name
        case.every_call()
    seven = page(7, "a x b x c x d x e x f x g")
    falls = with_byte(bodies, body_at + 1, 0)
    both = page(4, "a if b, c", pairs=["ab", "cd"])
    both_at = len(both) - 6
    several = [
        ("form 2, no atoms, one byte after the page", with_word(with_word(two, 0, 2), 2, 0) + b"\0", 2),
        ("no atoms, literals one byte late", with_word(with_word(two, 2, 0), 12, 23), 3),
        ("seven alternatives, one byte after the page", seven + b"\0", 4),
        ("seven alternatives, an atom out of range", with_byte(seven, len(seven) - 1, 7), 5),
        ("an atom out of range, a body that does not rise", with_byte(falls, body_at, 4), 6),
        ("an atom out of range in a pair, a body that does not rise", with_byte(with_byte(both, both_at, 3), len(both) - 1, 4), 6),
        ("a body that does not rise, an atom in two pairs", with_byte(with_byte(both, both_at, 3), len(both) - 1, 1), 7),
    ]
    for name, data, number in several:
        case = Case(name, data)
        assert case.page.number == number, name
        case.every_call()
    Case("an atom in two pairs, an atom raised that is not there", with_byte(pairs, pair_at + 2, 1), 64).every_call()
    raised = Case("an atom raised that is not there, no room", two, 4)
    raised.list(0)
    raised.degrees(3, 0)
    raised.compare(3, 3)
    raised.rounds(3)
    raised.pick()
    far = Case("a set out of range, too many split programs", page(4, *["a x b x c x d"] * 7))
    far.split(16)
    far.split(1)
    far.rounds(16)
    far.rounds(1)


def letters():
    """The panel letter of a number."""
    case = Case("panel letters", b"")
    for number in [*range(16), 256, 65535]:
        case.letter(number)


def build():
    known_pages()
    chains()
    large_pages()
    edges()
    lengths()
    faults()
    letters()
    size = sum(len(case.record()) for case in CASES)
    assert size <= 65536, f"{size} bytes are more than the program reads"


def check(folder):
    """Each case of the two files against what it should be, in its place; then that nothing stands after the last."""
    cases, lines = (folder / "stdin").read_bytes(), (folder / "stdout").read_bytes()
    wrong = []
    for case in CASES:
        record, text = case.record(), case.text().encode()
        if cases[:len(record)] != record or lines[:len(text)] != text:
            wrong.append(f"{case.name}, flags {case.flags}")
        cases, lines = cases[len(record):], lines[len(text):]
    if cases or lines:
        wrong.append("something stands after the last case")
    for name in wrong:
        print(f"not as it should be: {name}")
    print(f"{len(CASES) + 1 - len(wrong)} passed, {len(wrong)} failed")
    return not wrong


def main():
    folder = TOP / "crates" / "known"
    build()
    if "--check" in sys.argv[1:]:
        folders = [pathlib.Path(name) for name in sys.argv[2:]] or [folder]
        return 0 if all([check(looked_at) for looked_at in folders]) else 1
    (folder / "stdin").write_bytes(b"".join(case.record() for case in CASES))
    (folder / "stdout").write_bytes("".join(case.text() for case in CASES).encode())
    return 0


if __name__ == "__main__":
    sys.exit(main())
