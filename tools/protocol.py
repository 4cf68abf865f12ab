"""The table of the protocol, docs/protocol.json: refusals, limits, requests with their fields, and kinds of marks, each once."""

import json
import os
import re

ROOT = os.path.dirname(os.path.dirname(os.path.abspath(__file__)))
NAME = "docs/protocol.json"
# What stands for a number or a text of the table: `{line_bytes}` for 65536, `{line_bytes:,}` for 65,536.
HOLE = re.compile(r"\{(\w+)(:,)?\}")


def filled(value, known):
    """A value of the table whose holes are filled."""
    if isinstance(value, dict):
        return {name: filled(part, known) for name, part in value.items()}
    if isinstance(value, list):
        return [filled(part, known) for part in value]
    if isinstance(value, str):
        return HOLE.sub(lambda hole: f"{known[hole[1]]:,}" if hole[2] else filled(str(known[hole[1]]), known), value)
    return value


def listed(words, last):
    """Words as a sentence has them: `a, b or c`."""
    return f"{', '.join(words[:-1])} {last} {words[-1]}"


def edit_requests(table):
    """The requests that may be made by one of `edits`."""
    return [request["op"] for request in table["requests"] if request.get("is_edit")]


def beside_edits(table):
    """The fields that stand beside the list of `edits`."""
    edits = next(request for request in table["requests"] if request["op"] == "edits")
    return [name for name in [*edits["needed"], *edits["optional"]] if name != "edits"]


def names_of(table):
    """What may stand in a hole."""
    numbers = {name: limit["most"] for name, limit in table["limits"].items()}
    lists = {"edit_requests": listed(edit_requests(table), "or"), "beside_edits": listed([f"`{name}`" for name in beside_edits(table)], "and")}
    return {**numbers, **lists, **table["texts"], **table["advice"]}


def protocol():
    """The table, with its holes filled."""
    with open(os.path.join(ROOT, NAME), encoding="utf-8") as file:
        table = json.load(file)
    return filled({name: part for name, part in table.items() if name != "about"}, names_of(table))


def rule_of(kind):
    """What a field of a type has to be."""
    return kind["rule"] if "rule" in kind else listed(kind["words"], "or")


def fields_of(request):
    """Each field that a request may have, with its type."""
    of_kinds = [field for fields in request.get("of_kind", {}).values() for field in fields.items()]
    return dict([*request["needed"].items(), *of_kinds, *request.get("instead", {}).items(), *request.get("optional", {}).items()])


def types_of_fields(requests):
    """The type of each field, by its name; by `op name` where a request has a field of another type than those before it."""
    found = {}
    for request in requests:
        for name, kind in fields_of(request).items():
            if found.setdefault(name, kind) != kind:
                found[f"{request['op']} {name}"] = kind
    return found


def beside(requests):
    """The fields that a request needs beside the others, by its op and what it has: a kind of mark, or a field in their place."""
    kinds = {f"{request['op']} {kind}": " ".join(fields) for request in requests for kind, fields in request.get("of_kind", {}).items()}
    return kinds | {f"{request['op']} {field}": field for request in requests for field in request.get("instead", {})}
