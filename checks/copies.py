"""Each copy of a number, a name or a sentence of the protocol is the same: docs/protocol.json beside the sources, what both clients have of it, and
what the documents say."""

import os
import re
import subprocess
import sys

import said_numbers
import sources
from agreed import LIMITS, REQUESTS, ROOT, SIZES, TABLE, WORDS, sentences, text
from protocol import fields_of, types_of_fields

# What the journal says of a link that ended by a 12: a reason, and no word.
REASONS = {(12, "put back from an older copy")}
FIXED = ("crates/fixed_numbers/src/limits.rt", "crates/fixed_numbers/src/sizes.rt")
# The longest record of a character that is taken away, with its length: 16 deps and a token.
REMOVAL = 4 + 1 + 4 + 8 + 16 + 1 + 16 * 24 + 16 + 24
# A client's own check of a field, by the name of its rule.
HELD = re.compile(r'^ +"?([a-z_ ]+)"?: ', re.MULTILINE)


def same(checks, what, found, wanted):
    """Two sets of pairs are the same; else those pairs are shown that only one of them has."""
    checks.same(what, sorted(set(found) - set(wanted), key=str), [])
    checks.same(f"{what}, the other way", sorted(set(wanted) - set(found), key=str), [])


def check_refusals(checks):
    numbers = {it["word"].upper().replace(" ", "_"): it["number"] for it in TABLE["refusals"]}
    same(checks, "the numbers of refusals", numbers.items(), sources.refusals().items())
    same(checks, "their words", WORDS.items(), sources.words() - REASONS)
    same(checks, "the words of sessions", {(number, word) for number, word in WORDS.items() if number < 20}, sources.session_words().items())
    checks.same("the refusals that end the program", [it["number"] for it in TABLE["refusals"] if "ends" in it], sources.ends())
    same(checks, "the sentences of a terminal", said(sentences()), said(sources.sentences()))
    checks.same("each sentence is another one", len({words for _, _, words in sentences().values()}), len(sentences()))
    checks.same("what is said of each that a session is answered", [it["number"] for it in TABLE["refusals"] if "again" in it], list(sources.session_words()))


def said(found):
    """Sentences as they can be compared: each with its name, its numbers, and whether it is for one cause of them."""
    return {(name, *map(str, numbers), is_cause, words) for name, (numbers, is_cause, words) in found.items()}


def check_limits(checks):
    """Each limit and size is what its constant is, and no constant of those that all crates share is missing."""
    known = {**TABLE["limits"], **TABLE["sizes"]}
    for name, it in known.items():
        number = LIMITS.get(name, SIZES.get(name))
        if it.get("constant") == "u32::MAX":
            checks.same(f"the limit {name}", (number, "u32::MAX" in text(it["in"])), (2**32 - 1, True))
        elif "in" in it:
            checks.same(f"the limit {name}", number + it.get("has_line_feed", 0), sources.constants(it["in"]).get(it["constant"]))
    checks.same("each name is of a limit or of a size", len(known), len(LIMITS) + len(SIZES))
    for path in FIXED:
        checks.same(f"the constants of {path}", {it["constant"] for it in known.values() if it.get("in") == path}, set(sources.constants(path)))
    checks.holds("a client takes no more away at once than can wait", LIMITS["taken_characters"] * REMOVAL <= LIMITS["waiting_bytes"])


def check_requests(checks):
    verbs = [op for op in REQUESTS if op != "watch"]
    checks.same("the names of requests", verbs, sources.names("session_lines/src/verb.rt"))
    checks.same("the names of a watch", ["watch"], sources.functions("watch")["is_named"].split('"')[1:2])
    same(checks, "the fields of requests", allowed(), {(name, *sorted(fields)) for name, fields in sources.requests().items()})
    checks.same("the kinds of marks", TABLE["types"]["kind"]["words"], sources.names("session_lines/src/kind.rt"))
    checks.same("the sides of a place", TABLE["types"]["side"]["words"], sources.names("session_lines/src/several.rt"))
    checks.same("the forms of an export", TABLE["types"]["form"]["words"], sources.names("span_export/src/exporting.rt"))


def allowed():
    """The fields that each request may have, by its name; of marks by each kind too, and of a watch each way to ask."""
    found = set()
    for op, it in REQUESTS.items():
        ways = {f"{op} {kind}": it.get("of_kind", {}).get(kind, {}) for kind in TABLE["types"]["kind"]["words"]} if "kind" in it["needed"] else {op: {}}
        found |= {(way, *sorted(["op", *it["needed"], *more, *it.get("optional", {})])) for way, more in ways.items()}
        found |= {(f"{op} {name}", name, "op") for name in it.get("instead", {})}
    return found


def check_marks(checks):
    checks.same("the kinds of marks in the table", [it["kind"] for it in TABLE["marks"]], TABLE["types"]["kind"]["words"])
    checks.same("their bytes", {it["kind"]: it["byte"] for it in TABLE["marks"]}, sources.mark_bytes())
    checks.same("those that grow", [it["kind"] for it in TABLE["marks"] if it["grows"]], sources.growing())
    valued = {it["kind"]: it["value"] for it in TABLE["marks"] if it["value"]}
    checks.same("their values", {kind: next(iter(more)) for kind, more in REQUESTS["mark"]["of_kind"].items()}, valued)


def check_made(checks):
    """What tools/tables.py makes is what is there."""
    made = subprocess.run([sys.executable, os.path.join(ROOT, "tools", "tables.py"), "--check"], capture_output=True, text=True)
    checks.same("what tools/tables.py makes", (made.returncode, made.stdout, made.stderr), (0, "", ""))
    for path in said_numbers.SAID:
        checks.same(f"the numbers of {path}", said_numbers.missing(path), [])


def check_clients(checks):
    """Each field of a request has a type, and a rule that both clients hold requests to."""
    wanted = sorted(types_of_fields(TABLE["requests"]))
    for path, begin, end in (("clients/python/src/peritext/rules.py", "_HOLDS", "\n}"), ("clients/js/src/rules.js", "const HOLDS", "\n};")):
        held = text(path).partition(f"\n{begin}")[2].partition(end)[0]
        checks.same(f"the rules that {path} holds", sorted(HELD.findall(held)), wanted)
    checks.holds("a type for each field", all(kind in TABLE["types"] for it in REQUESTS.values() for kind in fields_of(it).values()))


def check(checks, _program, _until):
    check_refusals(checks)
    check_limits(checks)
    check_requests(checks)
    check_marks(checks)
    check_made(checks)
    check_clients(checks)
