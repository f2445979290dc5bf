#!/usr/bin/env python3
"""Makes the survey files of data/ and of the pick program's stdin, from docs/SPECIFICATION.md alone (9, and the cases of 15.3): it shares nothing with
the code that reads them.

Run it from the root of the repository; the files are committed, and no test runs it.
"""
import struct


def block(number, kind, words):
    """512 bytes: number, kind, the words, zeros up to 126 words, and the two sums of the check."""
    content = [number, kind] + words
    content += [0] * (126 - len(content))
    a, b = 1, 0
    for word in content:
        a = (a + word) % 2**32
        b = (b + a) % 2**32
    return struct.pack("<128I", *content, a, b)


def survey(groups, links, n=None, e=None):
    """A survey file: block 0, the group blocks, the link blocks, 62 pairs to a block."""
    blocks = [(1, [len(groups) if n is None else n, len(links) if e is None else e])]
    for kind, pairs in ((2, groups), (3, links)):
        for first in range(0, len(pairs), 62):
            blocks.append((kind, [word for pair in pairs[first:first + 62] for word in pair]))
    return b"".join(block(number, kind, words) for number, (kind, words) in enumerate(blocks))


F2_GROUPS = [(2, 2), (4, 3), (1, 12), (6, 3), (10, 3)]
F2_LINKS = [(0, 2), (1, 2), (1, 3), (1, 4)]
f2 = survey(F2_GROUPS, F2_LINKS)
assert len(f2) == 3 * 512
assert struct.unpack("<2I", f2[504:512]) == (11, 1363)        # a and b of its header

FILES = {
    "crates/pick/stdin": f2,
    "crates/drawings/data/f2.dat": f2,
    "crates/drawings/data/n_129.dat": survey([], [], n=129, e=0),
    "crates/drawings/data/n_0.dat": survey([], [], n=0, e=0),
    "crates/drawings/data/count_1000001.dat": survey([(2, 2), (4, 3), (1000001, 12), (6, 3), (10, 3)], F2_LINKS),
    "crates/drawings/data/one_group_0_5.dat": survey([(0, 5)], []),
}
for path, content in FILES.items():
    with open(path, "wb") as file:
        file.write(content)
