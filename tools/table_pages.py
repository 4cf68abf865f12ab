"""The tables of the documents, as Markdown."""

# Where most limits stand.
FIXED = "crates/fixed_numbers/src/limits.rt"
# Whether a request that was refused may be sent again, in the words of the table.
AGAIN = {
    "no": "no",
    "at once": "yes",
    "later": "a little later",
    "opened anew": "once the file is open again, with its token",
    "started again": "once the program runs again",
}


def table_of(*rows):
    """Rows, of which the first one is the head."""
    head, *others = [f"| {' | '.join(row)} |".replace("|  |", "| |") for row in rows]
    return "\n".join([head, "|" + "---|" * len(rows[0]), *others])


def code(name):
    return f"`{name}`"


def codes(names):
    return ", ".join(map(code, names))


def grouped(things, key):
    """Those that have the same key, in the order of the first of each."""
    found = {}
    for thing in things:
        found.setdefault(key(thing), []).append(thing)
    return found


def numbers_of(group):
    first, last = group[0]["number"], group[-1]["number"]
    return f"{first} to {last}" if last - first == len(group) - 1 > 2 else ", ".join(str(it["number"]) for it in group)


def refusals(table):
    """FORMATS.md: each number, its word and its causes."""
    groups = grouped(table["refusals"], lambda it: it["cause"])
    rows = [(numbers_of(group), ", ".join(it["word"] for it in group), cause) for cause, group in groups.items()]
    return table_of(("No.", "Word", "Cause"), *rows)


def to_do(table):
    """OPERATING.md: what to do after a refusal, and whether the request may be sent again."""
    groups = grouped([it for it in table["refusals"] if "do" in it], lambda it: (it["do"], it.get("again")))
    rows = [(", ".join(f"{it['number']} {it['word']}" for it in group), words, AGAIN[again] if again else "") for (words, again), group in groups.items()]
    return table_of(("No.", "What to do", "May the request be sent again?"), *rows)


def sentences(table):
    """OPERATING.md: what a terminal shows."""
    groups = grouped([it for it in table["refusals"] if "ends" in it], lambda it: it["sentence"])
    rows = []
    for words, group in groups.items():
        rows.append((numbers_of(group), words))
        rows += [(str(it["number"]), apart) for it in group for apart in it.get("told_apart", {}).values()]
    return table_of(("No.", "The sentence"), *rows)


def listed(table, name, kind):
    return code(name) + (" (a list)" if table["types"][kind].get("is_list") else "")


def fields(table, request):
    """The fields of a request, in words."""
    if "instead" in request:
        return f"either {codes(request['needed'])} or {codes(request['instead'])}"
    parts = [listed(table, name, kind) for name, kind in request["needed"].items()]
    parts += [f"{code(name)} for a {kind} alone" for kind, names in request.get("of_kind", {}).items() for name in names]
    parts += [f"optional {codes(request['optional'])}"] if "optional" in request else []
    return ", ".join(parts) or "none"


def requests(table):
    """FORMATS.md: the fields of each request."""
    groups = grouped(table["requests"], lambda it: (fields(table, it), it.get("where")))
    rows = [(codes(it["op"] for it in group) + (f", {where}" if where else ""), words) for (words, where), group in groups.items()]
    return table_of(("`op`", "Fields"), *rows)


def limits(table):
    """FORMATS.md: each limit, and where the code has it."""
    rows = [(f"{limit['unit']} {limit['what']}", f"{limit['most']:,}", place_of(limit)) for limit in table["limits"].values()]
    return table_of(("What", "At most", "In the code"), *rows)


def place_of(limit):
    if "in" not in limit:
        return "the clients"
    more = ", with the LF" if limit.get("has_line_feed") else ""
    return code(limit["constant"]) + more + (f", `{limit['in']}`" if limit["in"] != FIXED else "")


def marks(table):
    """FORMATS.md: the kinds of marks."""
    rows = [(str(it["byte"]), code(it["kind"]), code(it["value"]) if it["value"] else "none", grown(it), stood(it), around(it["html"]), around(it["markdown"]))
            for it in table["marks"]]
    return table_of(("Byte", "`kind`", "Value", "What is typed at its end", "Two over one character", "HTML", "Markdown"), *rows)


def grown(mark):
    return "has it too" if mark["grows"] else "is without it"


def stood(mark):
    if mark["value"] is None:
        return ""
    return "both" if mark["overlaps"] else "that of the greater id alone"


def around(pair):
    before, after = (part.replace("VALUE", "..") for part in pair)
    return code(f"{before}..{after}")


# The tables of each document, by the names that stand in their markers.
PAGES = {
    "docs/FORMATS.md": {"marks": marks, "requests": requests, "refusals": refusals, "limits": limits},
    "docs/OPERATING.md": {"to do": to_do, "sentences": sentences},
}


def begin(name):
    return f"<!-- table: {name}, made of docs/protocol.json by `python3 tools/tables.py` -->\n\n"


def end(name):
    return f"\n\n<!-- end of table: {name} -->"


def with_tables(text, table, tables):
    """A document with its tables made anew, each between its two markers."""
    for name, made in tables.items():
        before, opened, rest = text.partition(begin(name))
        _, closed, after = rest.partition(end(name))
        if not opened or not closed:
            raise ValueError(f"the table {name} has no markers")
        text = before + opened + made(table) + closed + after
    return text
