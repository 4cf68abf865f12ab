"""The layers of crates.txt: their picture, docs/layers.svg, and crates/README.md, which says what each crate is.

    python3 tools/layers.py            from the project's root: writes both
    python3 tools/layers.py --check    fails where one of them isn't as it would be written

Each crate of code stands in just one layer, and on layers that are drawn below it alone: where crates.txt says otherwise, this says so and
writes nothing. Crates of tests aren't drawn.
"""

import collections
import html
import re
import sys

WIDTH, ROW, GAP, MARGIN, LINE = 900, 26, 14, 16, 15
CRATES, PICTURE, PAGE = "crates.txt", "docs/layers.svg", "crates/README.md"
TESTS = "tests"
# Most crates name these.
EVERYWHERE = ("fixed_numbers", "thiserror")
PREFACE = """# The crates

Layers, the lowest first, as `crates.txt` has them; `python3 tools/layers.py` writes this page from it, and from the first
sentence of each crate. Almost all stand on `fixed_numbers` and `thiserror` too.

![Each layer stands on those below it](../docs/layers.svg)
"""

# From the top down: the rows of layers, each with its colour.
ROWS = (
    (("the program", "#e3f2fd"),),
    (("sessions", "#e8f5e9"), ("links", "#f1f8e9")),
    (("a hub: what a lock guards, and the part that commits", "#fff8e1"), ("what is shown and told", "#f9fbe7")),
    (("a replica and its documents", "#fff3e0"), ("the store in a file", "#fbe9e7")),
    (("operations as bytes", "#f3e5f5"), ("worlds, and plain programs", "#ede7f6")),
    (("the ground: the model, names, streams", "#eceff1"),),
)

# A layer: the line that tells of it, and what each of its crates stands on.
Layer = collections.namedtuple("Layer", "told crates")


def layers_of(path):
    """The layers of the file, by their titles."""
    found, title = {}, None
    with open(path, encoding="utf-8") as file:
        for line in file:
            if line.startswith("#:"):
                title = line[2:].strip()
                found[title] = Layer(next(file)[1:].strip(), {})
            elif ":" in line and not line.startswith("#"):
                name, _, below = line.partition(":")
                found[title].crates[name.split()[0]] = below.split()
    return found


def sentence(crate):
    """The first sentence of what a crate says of itself."""
    for top in ("lib", "main"):
        try:
            with open(f"crates/{crate}/src/{top}.rt", encoding="utf-8") as file:
                text = file.read()
        except OSError:
            continue
        first = " ".join(line[3:].strip() for line in re.match(r"(?://![^\n]*\n)+", text)[0].split("//!\n")[0].splitlines())
        return re.match(r".*?[.](?= |$)", first)[0]
    return ""


def faults(layers, drawn):
    """What of crates.txt the picture doesn't show as it is; drawn gives a crate's row and box."""
    for title in layers:
        if title != TESTS and not any(title == it for row in ROWS for it, _ in row):
            yield f"the layer {title} isn't drawn"
    for title, layer in layers.items():
        for name, below in layer.crates.items():
            for other in below:
                if title != TESTS and other in drawn and drawn[other] != drawn[name] and drawn[other][0] <= drawn[name][0]:
                    yield f"{name} stands on {other}, which isn't drawn below it"


def lines_of(words, width):
    """Words in lines that fit a box."""
    lines, line = [], ""
    for word in words:
        longer = f"{line}  {word}" if line else word
        if len(longer) * 7 > width - 16:
            lines.append(line)
            longer = word
        line = longer
    return lines + [line]


def box(x, y, width, height, title, colour, lines):
    yield f'<rect x="{x}" y="{y}" width="{width}" height="{height}" rx="6" fill="{colour}" stroke="#90a4ae"/>'
    yield f'<text x="{x + 8}" y="{y + 18}" font-weight="bold">{html.escape(title)}</text>'
    for i, line in enumerate(lines):
        yield f'<text x="{x + 8}" y="{y + 38 + LINE * i}" xml:space="preserve">{html.escape(line)}</text>'


def picture(layers):
    y, parts = MARGIN, []
    for row in ROWS:
        of = [list(reversed(layers[title].crates)) for title, _ in row]
        lengths = [len(" ".join(crates)) + 40 for crates in of]
        space, x, boxes = WIDTH - 2 * MARGIN - GAP * (len(row) - 1), MARGIN, []
        for (title, colour), crates, length in zip(row, of, lengths):
            width = space * length // sum(lengths)
            boxes.append((x, width, title, colour, lines_of(crates, width)))
            x += width + GAP
        height = ROW + 10 + LINE * max(len(lines) for *_, lines in boxes)
        for x, width, title, colour, lines in boxes:
            parts.extend(box(x, y, width, height, title, colour, lines))
        y += height + GAP
    size = f'width="{WIDTH}" height="{y}"'
    return [f'<svg xmlns="http://www.w3.org/2000/svg" {size} font-family="sans-serif" font-size="12">', f'<rect {size} fill="white"/>', *parts, "</svg>"]


def page(layers):
    """What each layer and each crate is."""
    yield PREFACE.rstrip("\n")
    for title, layer in layers.items():
        yield f"\n## {title[0].upper()}{title[1:]}\n\n{layer.told}\n\n| Crate | What it is | Stands on |\n|---|---|---|"
        for name, below in layer.crates.items():
            others = ", ".join(f"`{it}`" for it in below if it not in EVERYWHERE)
            yield f"| `{name}` | {sentence(name)} | {others} |"


def main():
    layers = layers_of(CRATES)
    drawn = {name: (i, j) for i, row in enumerate(ROWS) for j, (title, _) in enumerate(row) for name in layers[title].crates}
    found = list(faults(layers, drawn))
    for path, lines in ((PICTURE, picture(layers)), (PAGE, page(layers))):
        text = "\n".join(lines) + "\n"
        if found:
            break
        if "--check" not in sys.argv[1:]:
            with open(path, "w", encoding="utf-8") as file:
                file.write(text)
        elif open(path, encoding="utf-8").read() != text:
            found.append(f"{path} isn't what `python3 tools/layers.py` writes")
    if found:
        sys.exit("\n".join(found))


if __name__ == "__main__":
    main()
