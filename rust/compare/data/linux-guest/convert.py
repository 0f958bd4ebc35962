"""Writes tables.txt, pages.txt and pairs.txt beside this file from the recorded guest: convert.py FOLDER, which has the
meta.json, tables.bin and tlb.txt of four.tar.xz. README.md says what the lines are."""

import json
import struct
import sys
from pathlib import Path

SOURCE, HERE = Path(sys.argv[1]), Path(__file__).parent


def runs(items, step_of):
    """Cuts a list into runs in which each item is the first one plus a multiple of one step: (first, count, step). A run of two
    is two items."""
    at = 0
    while at < len(items):
        end = at + 1
        step = step_of(items[at], items[end]) if end < len(items) else None
        while step and end < len(items) and step_of(items[end - 1], items[end]) == step:
            end += 1
        if end - at < 3:
            end, step = at + 1, None
        yield items[at], end - at, step
        at = end


def write(name, head, lines):
    (HERE / name).write_text("".join(f"{line}\n" for line in [*head, *lines]))


def table_lines(frame, words):
    """The words of a table that are not 0, as runs over neighbouring places; its frame alone if there are none."""
    used = [(place, word) for place, word in enumerate(words) if word]
    if not used:
        yield f"{frame:x}"

    def step(one, other):
        return (other[0] - one[0], other[1] - one[1]) if other[0] == one[0] + 1 and other[1] >= one[1] else None

    for (place, word), count, by in runs(used, step):
        yield f"{frame:x} {place:x} {word:x}" + (f" {count:x} {by[1]:x}" if by else "")


def page_lines(pages):
    def step(one, other):
        up = other[0] > one[0] and other[1] >= one[1] and one[2] == other[2]
        return (other[0] - one[0], other[1] - one[1]) if up else None

    for (address, physical, flags), count, by in runs(pages, step):
        yield f"{address:x} {physical:x} {flags}" + (f" {count:x} {by[0]:x} {by[1]:x}" if by else "")


meta = json.loads((SOURCE / "meta.json").read_text())
roots = [int(root, 16) >> 12 for root in [meta["cr3"], *meta["other_roots"]]]
binary = (SOURCE / "tables.bin").read_bytes()
words = struct.unpack(f"<{len(binary) // 8}Q", binary)
tables = [(frame, words[512 * at:512 * at + 512]) for at, frame in enumerate(meta["table_frames"])]
lines = [line for frame, table in tables for line in table_lines(frame, table)]
write("tables.txt", ["roots " + " ".join(f"{root:x}" for root in roots)], lines)

listed = [line.split() for line in (SOURCE / "tlb.txt").read_text().splitlines()]
pages = [(int(address.rstrip(":"), 16), int(physical, 16), flags) for address, physical, flags in listed]
write("pages.txt", [], page_lines(pages))

pairs = [(int(address, 16), physical and int(physical, 16)) for address, physical in meta["gva2gpa"]]
assert all(physical is None or physical % 4096 == address % 4096 for address, physical in pairs)
frames = ["-" if physical is None else f"{physical >> 12:x}" for _, physical in pairs]
write("pairs.txt", [], [f"{address:x} {frame}" for (address, _), frame in zip(pairs, frames)])
