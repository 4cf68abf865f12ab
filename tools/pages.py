"""A picture of a page file, made from the format alone (docs/FORMATS.md): which page holds what.

python3 tools/pages.py FILE > picture.svg

It reads the file without a lock and writes nothing to it; beside a session that edits, the picture may be of no state that the file ever
had. Each square is a page of 4,096 bytes, in the order of the file, 64 a row. The live root's pages are full, those that only the other root
names are pale, and a page that neither names is free. A root that breaks a rule is told on standard error, by its refusal number.
"""

import struct
import sys

PAGE = 4_096
SLOT = struct.Struct(">8sQ16sQQII")
MAGICS = (b"PTXTPG01", b"PTXTPG02", b"PTXTPG03")
COLUMNS = 64
SIDE = 12
MARGIN = 16

KINDS = (
    ("live root", "#1b5e20"),
    ("live table", "#43a047"),
    ("live data", "#a5d6a7"),
    ("stale root", "#b0663a"),
    ("stale table", "#d9a27e"),
    ("stale data", "#f3dccb"),
    ("free", "#eeeeee"),
)


class Broken(Exception):
    """A root that can't be read, with the number of the refusal that it brings."""

    def __init__(self, number, what):
        super().__init__(f"{number}: {what}")


class Root:
    """The root in a slot: its fields, and the numbers of its table pages and its data pages."""

    def __init__(self, pages, slot):
        body = pages[slot]
        magic, self.version, self.replica, self.length, self.count, tables, zero = SLOT.unpack_from(body, 8)
        if magic not in MAGICS or self.version == 0 or zero or tables != needed(needed(self.length, PAGE), PAGE // 4):
            raise Broken(43, f"the root in slot {slot}")
        self.tables = numbers(body[64 : 64 + 4 * tables])
        if any(not 2 <= page < len(pages) for page in self.tables):
            raise Broken(43, f"a table page of the root in slot {slot}")
        entries = [page for table in self.tables for page in numbers(pages[table])]
        self.data = entries[: needed(self.length, PAGE)]
        if any(not 2 <= page < len(pages) for page in self.data):
            raise Broken(45, f"a table page of the root in slot {slot}")


def needed(amount, size):
    return -(-amount // size)


def numbers(data):
    return [number for (number,) in struct.iter_unpack(">I", data)]


def pages_of(name):
    with open(name, "rb") as file:
        data = file.read()
    return [data[at : at + PAGE] for at in range(0, len(data) // PAGE * PAGE, PAGE)]


def version_in(page):
    """The version in an open slot, 0 in one that isn't open."""
    return struct.unpack_from(">Q", page, 16)[0] if page[0] == 1 else 0


def live_slot(pages):
    if len(pages) < 2 or not any(page[0] == 1 for page in pages[:2]):
        raise Broken(42, "no open slot")
    first, second = map(version_in, pages[:2])
    if first == second:
        raise Broken(43, "two open slots of one version")
    return 0 if first > second else 1


def kinds_of(pages):
    """What each page is, by name, and the live root."""
    slot = live_slot(pages)
    live = Root(pages, slot)
    kinds = ["free"] * len(pages)
    kinds[1 - slot] = "stale root"
    try:
        stale = Root(pages, 1 - slot)
        name_pages(kinds, "stale", stale)
    except Broken:
        pass
    kinds[slot] = "live root"
    name_pages(kinds, "live", live)
    return kinds, live


def name_pages(kinds, which, root):
    for page in root.tables:
        kinds[page] = f"{which} table"
    for page in root.data:
        kinds[page] = f"{which} data"


def square(at, kind, top, colour):
    x = MARGIN + at % COLUMNS * SIDE
    y = top + at // COLUMNS * SIDE
    return f'<rect x="{x}" y="{y}" width="{SIDE - 1}" height="{SIDE - 1}" fill="{colour}"><title>page {at}: {kind}</title></rect>'


def legend(kinds, top):
    """A line for the kinds that are there, each with its number of pages."""
    x = MARGIN
    for kind, colour in KINDS:
        if kind in kinds:
            words = f"{kind} {kinds.count(kind)}"
            yield f'<rect x="{x}" y="{top}" width="{SIDE - 1}" height="{SIDE - 1}" fill="{colour}"/>'
            yield f'<text x="{x + SIDE + 4}" y="{top + SIDE - 3}">{words}</text>'
            x += SIDE + 20 + 7 * len(words)


def picture(kinds, live):
    colours = dict(KINDS)
    top = MARGIN + 44
    wide = 2 * MARGIN + COLUMNS * SIDE
    high = top + needed(len(kinds), COLUMNS) * SIDE + MARGIN
    yield f'<svg xmlns="http://www.w3.org/2000/svg" width="{wide}" height="{high}" font-family="sans-serif" font-size="12">'
    yield f'<rect width="{wide}" height="{high}" fill="white"/>'
    yield f'<text x="{MARGIN}" y="{MARGIN + 10}">version {live.version}, {live.count:,} operations, {live.length:,} bytes of records, {len(kinds)} pages</text>'
    yield from legend(kinds, MARGIN + 20)
    for at, kind in enumerate(kinds):
        yield square(at, kind, top, colours[kind])
    yield "</svg>"


def main():
    if len(sys.argv) != 2:
        raise SystemExit(__doc__)
    try:
        print("\n".join(picture(*kinds_of(pages_of(sys.argv[1])))))
    except OSError as error:
        raise SystemExit(f"{sys.argv[1]}: {error.strerror}") from None
    except Broken as broken:
        raise SystemExit(f"{sys.argv[1]}: {broken}") from None


if __name__ == "__main__":
    main()
