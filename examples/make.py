#!/usr/bin/env python3
"""Writes the page files of this folder from the words below.  With --check it writes nothing and says which differ.

A row reads "x" as "or else": `live x second if not off` wants live, or else second, unless off holds.
`no head if live, bubble` says that live and bubble may not hold together.
"""
import pathlib
import sys


def row_numbers(text, number):
    """A row in words as three lists of atom numbers: head, positive body, negative body."""
    head, _, body = text.partition(" if ")
    heads = [] if head == "no head" else [number[atom] for atom in head.split(" x ")]
    literals = body.split(", ") if body else []
    positive = sorted(number[atom] for atom in literals if not atom.startswith("not "))
    negative = sorted(number[atom[4:]] for atom in literals if atom.startswith("not "))
    return heads, positive, negative


def page_bytes(atoms, rows, pairs=()):
    """The page: header of nine 16-bit fields, four bytes for each row, all literals, all pairs."""
    number = {atom: i for i, atom in enumerate(atoms)}
    rows = [row_numbers(row, number) for row in rows]
    pairs = sorted(sorted((number[a], number[b])) for a, b in pairs)
    literals = [atom for row in rows for part in row for atom in part]
    literals_at = 18 + 4 * len(rows)
    pairs_at = literals_at + len(literals)
    fields = [1, len(atoms), len(rows), len(literals), len(pairs), 18, literals_at, pairs_at, pairs_at + 2 * len(pairs)]
    page = b"".join(field.to_bytes(2, "little") for field in fields)
    page += bytes(byte for row in rows for byte in (len(row[0]), len(row[1]), len(row[2]), 0))
    return page + bytes(literals) + bytes(atom for pair in pairs for atom in pair)


def ring(group):
    """For each atom of the group a row that starts at it and goes once round."""
    return [" x ".join(group[i:] + group[:i]) for i in range(len(group))]


def longest():
    """32 rows of 22 literals: row r has the eight atoms from r on as positive body, the other eight as negative body."""
    atoms = [f"m{i}" for i in range(16)]
    rows = []
    for r in range(32):
        turn = atoms[r % 16:] + atoms[:r % 16]
        head = [turn[(r // 16 + 3 * k) % 16] for k in range(6)]
        rows.append(" x ".join(head) + " if " + ", ".join(turn[:8] + ["not " + atom for atom in turn[8:]]))
    return atoms, rows, [(atoms[i], atoms[i + 8]) for i in range(8)]


def rivals(count):
    """`count` valves that one row wants open and another shut, so that no two positions can be compared, and a lamp
    that should be lit: each position without the lamp is beaten by the same position with it, and by no other."""
    valves = [f"v{i}" for i in range(count)]
    rows = ["ready", "no head if never"]
    for valve in valves:
        rows += [f"{valve} x ready", f"never x ready if {valve}"]
    return valves + ["ready", "never", "lamp"], rows + ["lamp x ready"]


letters = [chr(ord("a") + i) for i in range(16)]


def equals():
    """Rings of six, six and three, and for each atom a row that would rather be without it: what a set gains by an atom in
    the one row it loses in the other, so that no two sets can be compared."""
    rows = ring(letters[:6]) + ring(letters[6:12]) + ring(letters[12:15])
    return rows + [f"p x {a} if {a}" for a in letters[:15]] + ["no head if p"]


pages = {
    "two": page_bytes("ab", ["a x b"]),
    "train": page_bytes(
        "live second held none bubble off".split(),
        ["live x second x held x none", "no head if live, bubble", "no head if second, off"]),
    "display": page_bytes(
        "live second held none bubble off stale".split(),
        ["live x second x held x none", "no head if live, bubble", "no head if second, off", "no head if held, stale"]),
    "two-trains": page_bytes(
        "live1 second1 held1 none1 live2 second2 held2 none2 bubble1 off1 bubble2 off2 washing aged blind call".split(),
        ["live1 x second1 x held1 x none1", "live2 x second2 x held2 x none2",
         "no head if live1, bubble1", "no head if second1, off1",
         "no head if live2, bubble2", "no head if second2, off2",
         "no head if live1, washing", "no head if live2, washing",
         "no head if second1, second2", "no head if held1, held2",
         "aged if held1", "aged if held2", "blind if none1", "blind if none2",
         "call if blind", "call if aged, not washing"]),
    "steps": page_bytes("pump flow valid".split(), ["pump", "flow if pump", "valid if flow"]),
    "car": page_bytes(
        "mercedes bmw gas diesel not-gas".split(),
        ["mercedes x bmw", "gas x diesel if mercedes", "not-gas"], [("gas", "not-gas")]),
    "never": page_bytes("a", ["a if not a"]),
    "rings": page_bytes(letters, ring(letters[:6]) + ring(letters[6:12]) + ring(letters[12:])),
    "wishes": page_bytes(letters[:15] + ["t"], ["t"] + [f"{a} x t" for a in letters[:15]]),
    "longest": page_bytes(*longest()),
    "rivals": page_bytes(*rivals(11)),
    "equals": page_bytes(letters, equals()),
}
pages["tail"] = pages["train"] + b"\0"  # one byte too many


def main():
    folder = pathlib.Path(__file__).resolve().parent
    differing = 0
    for name, page in pages.items():
        path = folder / f"{name}.page"
        if "--check" not in sys.argv[1:]:
            path.write_bytes(page)
        elif not path.is_file() or path.read_bytes() != page:
            differing += 1
            print(f"{path.name} differs")
    return differing != 0


if __name__ == "__main__":
    sys.exit(main())
