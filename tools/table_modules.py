"""The tables of both clients, as modules that hold data alone."""

import json

from protocol import beside, beside_edits, edit_requests, rule_of, types_of_fields

FIRST = "Made of docs/protocol.json by `python3 tools/tables.py`: change that file, and not this one."
# The limits that clients know.
LIMITS = ("edit_characters", "edits", "url_bytes", "line_bytes", "whole", "counter", "places", "watched", "found", "taken_characters")
# What only a session is answered has a name in the clients.
LAST_OF_SESSIONS = 12


def limits(table):
    """The name of each number, the number, and what it is."""
    return [(name.upper(), table["limits"][name]["most"], f"The limit of {table['limits'][name]['unit']} {table['limits'][name]['what']}.") for name in LIMITS]


def requests(table):
    """The tables of requests and their fields."""
    asked = table["requests"]
    kinds = types_of_fields(asked)
    return [
        ("NEEDED", {it["op"]: " ".join(it["needed"]) for it in asked if it["needed"]}, "The fields that a request needs."),
        ("BESIDE", beside(asked), "The fields that a mark of some kind needs beside them, or a watch of many documents in their place."),
        ("OPTIONAL", {it["op"]: " ".join(it["optional"]) for it in asked if "optional" in it}, "The fields that a request may have."),
        ("RULES", {name: rule_of(table["types"][kind]) for name, kind in kinds.items()}, "What each field has to be, of any request, or of one in particular."),
        ("ONE", edit_requests(table), "The requests that may be made by one of `edits`."),
        ("ALL", beside_edits(table), "The fields that stand beside the list of `edits`."),
        ("PLACE_FIELDS", [name for name, kind in kinds.items() if kind == "place"], "The fields of an edit that are places of the text."),
        ("KINDS", table["types"]["kind"]["words"], "The kinds of marks."),
        ("SIDES", table["types"]["side"]["words"], "The neighbours that a place may stay with."),
        ("FORMS", table["types"]["form"]["words"], "The forms of an export."),
        ("LATER", [it["op"] for it in asked if it.get("is_later")], "The requests that an older program doesn't know."),
    ]


def refusals(table):
    """The numbers of refusals that sessions are answered, and the sentences for them."""
    numbers = [(it["word"].upper(), it["number"], None) for it in table["refusals"] if it["number"] <= LAST_OF_SESSIONS]
    advice = {it["number"]: it["sentence"] for it in table["refusals"] if "sentence" in it}
    said = [(name.upper(), words, None) for name, words in table["advice"].items()]
    return [*numbers, ("ADVICE", advice, "Why, and what to do, by the number of a refusal: what the program itself says on a terminal."), *said]


# The modules by their names, what each says of itself, and what it holds.
MODULES = {
    "limit_table": ("The limits that a request has to keep.", limits),
    "request_table": ("Requests and the rules of their fields.", requests),
    "refusal_table": ("Refusals by their numbers, and what is said of them.", refusals),
}


def quoted(value):
    """A number or a text, as both languages have it."""
    return f"{value:_}" if isinstance(value, int) else json.dumps(value, ensure_ascii=False)


def python_value(value):
    if isinstance(value, dict):
        return "{\n" + "".join(f"    {quoted(name)}: {quoted(part)},\n" for name, part in value.items()) + "}"
    return f"({', '.join(map(quoted, value))})" if isinstance(value, list) else quoted(value)


def python_module(title, values):
    """A module of the Python client."""
    lines = [f'# {FIRST}\n"""{title}"""\n']
    for name, value, about in values:
        lines += [f"# {about}"] if about else []
        lines.append(f"{name} = {python_value(value)}")
    return "\n".join(lines) + "\n"


def script_key(name):
    return str(name) if isinstance(name, int) or name.isidentifier() else quoted(name)


def script_value(value):
    if isinstance(value, dict):
        return "{\n" + "".join(f"  {script_key(name)}: {quoted(part)},\n" for name, part in value.items()) + "}"
    return f"[{', '.join(map(quoted, value))}]" if isinstance(value, list) else quoted(value)


def script_comment(value, about):
    """What stands above a value: what it is, and its type."""
    if isinstance(value, dict):
        key = "number" if all(isinstance(name, int) for name in value) else "string"
        return f"/**\n * {about}\n * @type {{Record<{key}, string>}}\n */\n"
    return f"/** {about} */\n" if about else ""


def script_module(title, values):
    """A module of the JavaScript client."""
    parts = [f"// {FIRST}\n\n/** {title} */\n\n"]
    for number, (name, value, about) in enumerate(values):
        parts.append(("\n" if about and number > 0 else "") + script_comment(value, about) + f"export const {name} = {script_value(value)};\n")
    return "".join(parts)


def modules(table):
    """The text of each module, by its path."""
    found = {}
    for name, (title, values) in MODULES.items():
        found[f"clients/python/src/peritext/{name}.py"] = python_module(title, values(table))
        found[f"clients/js/src/{name}.js"] = script_module(title, values(table))
    return found
