"""What a page means, straight from the definitions that docs/MEANING.md explains. Short and slow, and it shares nothing with the engine:
the lines that the engine's programs have to print are made by it.

A set of atoms is a number, and bit i is atom i. A row is a triple of lists: head, positive body, negative body.
"""
import itertools
import math
import struct
import sys


class Page:
    """The bytes of a page, the number of its lowest fault (0 where it has none), and, where it has none, what stands on it."""

    def __init__(self, data):
        self.data = data
        self.atoms, self.rows, self.pairs = 0, [], []
        self.number = self.read()

    def read(self):
        if len(self.data) < 18:
            return 1
        form, atoms, rows, literals, pairs, *places = struct.unpack("<9H", self.data[:18])
        if form != 1:
            return 2
        if not (1 <= atoms <= 16 and rows <= 32 and literals <= 704 and pairs <= 8):
            return 3
        literals_at = 18 + 4 * rows
        pairs_at = literals_at + literals
        end = pairs_at + 2 * pairs
        if places != [18, literals_at, pairs_at, end] or end != len(self.data):
            return 4
        counts = [tuple(self.data[at:at + 4]) for at in range(18, literals_at, 4)]
        if any(h > 6 or p > 8 or n > 8 or zero for h, p, n, zero in counts) or sum(map(sum, counts)) != literals:
            return 5
        if any(atom >= atoms for atom in self.data[literals_at:]):
            return 6
        self.rows = list(cut(self.data[literals_at:pairs_at], counts))
        if any(body != sorted(set(body)) for row in self.rows for body in row[1:]):
            return 7
        self.pairs = [tuple(self.data[at:at + 2]) for at in range(pairs_at, end, 2)]
        firsts = [a for a, b in self.pairs]
        if any(a >= b for a, b in self.pairs) or firsts != sorted(set(firsts)) or len(set(itertools.chain(*self.pairs))) != 2 * pairs:
            return 8
        self.atoms = atoms
        return 0

    def program(self, flags):
        """The rows, and one for each raised atom."""
        return self.rows + [([atom], [], []) for atom in atoms_of(flags)]

    def out(self, *words):
        """9 where a flag word or a set has a bit at A or above."""
        return any(word >> self.atoms for word in words)


def cut(literals, counts):
    """The rows: from the literals take a head, a positive and a negative body, row after row."""
    literals = iter(literals)
    for head, positive, negative, _ in counts:
        yield tuple([next(literals) for _ in range(n)] for n in (head, positive, negative))


def atoms_of(s):
    return [atom for atom in range(16) if s >> atom & 1]


def body_holds(row, s):
    return all(s >> a & 1 for a in row[1]) and not any(s >> a & 1 for a in row[2])


def satisfied(row, s):
    return not body_holds(row, s) or any(s >> a & 1 for a in row[0])


def no_pair(page, s):
    return not any(s >> a & 1 and s >> b & 1 for a, b in page.pairs)


def reached(rules):
    """The empty set, and the set after each round that adds something. The rules have one head atom and a positive body; in a round they fire
    together, so each body is looked at in the set before the round."""
    s, more = None, 0
    while more != s:
        s = more
        yield s
        for atom, positive in rules:
            if all(s >> a & 1 for a in positive):
                more |= 1 << atom


def least(rules):
    """The least set closed under the rules: the last that is reached."""
    return list(reached(rules))[-1]


def rounds(rules):
    """How many rounds add something."""
    return len(list(reached(rules))) - 1


def reduct(program, s):
    """For each place of a head: its atom if the positive body, where the atom is in s and no earlier and no negative atom is."""
    return [(head[i], positive) for head, positive, negative in program for i in range(len(head))
            if s >> head[i] & 1 and not any(s >> a & 1 for a in head[:i] + negative)]


def is_answer(page, flags, s):
    program = page.program(flags)
    return no_pair(page, s) and all(satisfied(row, s) for row in program) and least(reduct(program, s)) == s


def rounds_to(page, flags, s):
    """How many rounds it takes by the reduct for s, an answer set or not."""
    return rounds(reduct(page.program(flags), s))


def is_here_there(page, flags, t):
    """No smaller h may be a model together with t."""
    program = page.program(flags)

    def holds(row, h):
        first = [a for a in row[0] if t >> a & 1][:1]
        missed = any(not h >> a & 1 for a in row[1]) or any(t >> a & 1 for a in row[2])
        return satisfied(row, t) and (missed or any(h >> a & 1 for a in first))

    def model(h):
        return all(holds(row, h) for row in program)

    return no_pair(page, t) and model(t) and not any(model(h) for h in range(t) if h & t == h)


def split_programs(page):
    """How many there are: the product of the head counts, a headless row counting 1."""
    product = 1
    for head, _, _ in page.rows:
        product *= len(head) or 1
    return product


def split_count(page, flags, s):
    """How many choices of one option for each row have s as answer set. A headless row is its own one option."""
    def options(row):
        head, positive, negative = row
        return [([head[k]], positive, negative + head[:k]) for k in range(len(head))] or [row]

    def has_answer(choice):
        kept = [row for row in choice if not any(s >> a & 1 for a in row[2])]
        closed = all(any(not s >> a & 1 for a in row[1]) for row in kept if not row[0])
        return closed and least([(row[0][0], row[1]) for row in kept if row[0]]) == s

    return no_pair(page, s) and sum(map(has_answer, itertools.product(*map(options, page.program(flags)))))


def answers(page, flags):
    """All answer sets, rising."""
    return [s for s in range(1 << page.atoms) if s & flags == flags and is_answer(page, flags, s)]


def degree(row, s):
    return 1 if not body_holds(row, s) else next(i + 1 for i, a in enumerate(row[0]) if s >> a & 1)


def degrees(page, s):
    return [degree(row, s) for row in page.rows]


def rows_by_degree(page, flags, s):
    """For each degree the collection of the rows that have it in s."""
    found = [degree(row, s) for row in page.program(flags)]
    return [{row for row, d in enumerate(found) if d == k} for k in range(1, 7)]


def is_preferred(m, n):
    """m and n as collections by degree: at the first degree where they differ, n's is a strict part of m's."""
    for of_m, of_n in zip(m, n):
        if of_m != of_n:
            return of_n < of_m
    return False


def best(page, flags, sets):
    """The sets to which none is preferred. Preference is transitive, so it is enough to keep those that nothing seen so far beats."""
    kept = []
    for s in reversed(sets):
        mine = rows_by_degree(page, flags, s)
        if any(is_preferred(other, mine) for _, other in kept):
            continue
        kept = [(r, other) for r, other in kept if not is_preferred(mine, other)] + [(s, mine)]
    return sorted(s for s, _ in kept)


def letter(number):
    """The panel letter."""
    return "P" if 1 <= number <= 8 else "C" if number in (9, 11, 12) else "F" if number in (10, 13) else " "


def solved(data, flags):
    """The page, the number that it and the flag word get, and where that is 0 the answer sets."""
    page = Page(data)
    number = page.number or (9 if page.out(flags) else 0)
    return page, number, answers(page, flags) if number == 0 else []


def printed(data, flags, with_rounds=False):
    """What the program pagerun prints of a page and a flag word, and what the front adds where the rounds are asked for."""
    page, number, sets = solved(data, flags)
    if number == 0 and len(sets) > 32768:
        number = 11
    if number:
        return f"refused {number}\n"
    lines = [f"sets {len(sets)}"]
    winners = best(page, flags, sets)
    among = set(winners)
    for s in sets:
        text = " ".join(map(str, degrees(page, s))) or "none"
        lines.append(f"set {s} degrees {text}" + (" best" if s in among else "") + (f" rounds {rounds_to(page, flags, s)}" if with_rounds else ""))
    lines.append(f"pick {winners[0]}" if winners else "refused 10")
    return "\n".join(lines) + "\n"


def counted(data, flags, first, last):
    """What the program roundrun prints of the sets from the first to the last; where the last is below the first, of the first alone."""
    page = Page(data)
    lines = []
    for s in range(first, max(first, last) + 1):
        number = page.number or (9 if page.out(flags, s) else 0)
        if number:
            lines.append(f"refused {number}")
            break
        atoms = " ".join(map(str, atoms_of(s))) or "none"
        lines.append(f"set {s} atoms {atoms} rounds {rounds_to(page, flags, s)}")
    return "\n".join(lines) + "\n"


def display(data, flags, readings):
    """What the program showrun prints of three readings, which are given by their bits."""
    page, number, sets = solved(data, flags)
    if number == 0 and not sets:
        number = 10
    if number:
        return f"refused {number}\n"
    outcomes = [atom for atom in atoms_of(best(page, flags, sets)[0]) if atom < 4]
    if page.atoms < 4 or len(outcomes) != 1:
        return "refused 14\n"
    if outcomes == [3]:
        return "no number\n"
    bits = readings[outcomes[0]]
    if not math.isfinite(struct.unpack("<f", struct.pack("<I", bits))[0]):
        return "refused 15\n"
    return f"{('live', 'second', 'held')[outcomes[0]]} {bits:08x}\n"


def main(words):
    """PAGE FLAGS: what pagerun prints; --rounds PAGE FLAGS: with the rounds; PAGE FLAGS FIRST LAST: what roundrun prints."""
    with_rounds = words[0] == "--rounds"
    name, *numbers = words[1:] if with_rounds else words
    flags, *ends = (int(word, 0) for word in numbers)
    with open(name, "rb") as file:
        data = file.read()
    sys.stdout.write(counted(data, flags, *ends) if ends else printed(data, flags, with_rounds))


if __name__ == "__main__":
    main(sys.argv[1:])
