#!/usr/bin/env python3
"""Writes inputs of the program showrun and what it has to print: screens.py FOLDER makes FOLDER/N.in and FOLDER/N.want for N from 0 on, and prints
how many there are. The lines come from the definitions (tests/known/meaning.py)."""
import itertools
import pathlib
import struct
import sys

top = pathlib.Path(__file__).resolve().parent.parent.parent
sys.path += [str(top / "examples"), str(top / "tests" / "known")]
sys.dont_write_bytecode = True
import make  # noqa: E402
import meaning  # noqa: E402

# ordinary, zeros, subnormal, largest and smallest finite, infinities, NaNs: by their bits
KINDS = [0x3DA3D70A, 0x00000000, 0x80000000, 0x00000001, 0x807FFFFF, 0x7F7FFFFF, 0xFF7FFFFF, 0x7F800000, 0xFF800000, 0x7FC00000, 0xFF800001]
four = ["live", "second", "held", "none"]
display = make.pages["display"]
# pages without a shown outcome: three atoms, the empty pick, none of the four, two of them, no answer set, a page that is refused
others = [
    make.page_bytes(four[:3], ["live"]),
    make.page_bytes(four, []),
    make.page_bytes(four + ["other"], ["other"]),
    make.page_bytes(four, ["live", "held"]),
    make.page_bytes(four, ["second", "none"]),
    make.page_bytes(four[:3], ["live if not live"]),
    display + b"\0",
]


def inputs():
    for flags in (0x00, 0x10, 0x30, 0x70):
        for readings in itertools.product(KINDS, KINDS[:1] + KINDS[7:8], KINDS[2:3] + KINDS[9:10]):
            for turn in range(3):
                yield readings[turn:] + readings[:turn], flags, display
    for page in others:
        for kind in KINDS[0], KINDS[7], KINDS[9]:
            yield (kind, kind, kind), 0, page
    yield KINDS[:3], 0x80, display  # a flag that the page does not have


def main(folder):
    count = 0
    for readings, flags, page in inputs():
        data = struct.pack("<3IH", *readings, flags) + page
        (folder / f"{count}.in").write_bytes(data)
        (folder / f"{count}.want").write_text(meaning.display(page, flags, readings))
        count += 1
    print(count)


if __name__ == "__main__":
    main(pathlib.Path(sys.argv[1]))
