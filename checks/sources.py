"""What the sources say by number and by name: read, not run."""

import glob
import os
import re

from agreed import ROOT, text

CONSTANT = re.compile(r"^ *(?:pub(?:\(crate\))? )?const (\w+): \w+ = ([\d_]+);", re.MULTILINE)
# A refusal of a type, with its number by name; and its word.
NUMBERED = re.compile(r"^ +\w+::(\w+)(?:\(_\))? => ([A-Z_0-9]+),$", re.MULTILINE)
WORDED = re.compile(r'#\[error\("([^"{}]+)"\)\]\n +(\w+)[,({]')
SAID = re.compile(r'^ +Refusal::(\w+) => "(\w+)",$', re.MULTILINE)
SENTENCE = re.compile(r'    /// (\d+(?:, \d+)*)(: [^\n]*)?\n    #\[error\("([^"]*)"\)\]\n    (\w+),\n')
# A literal that goes on in the next line.
CUT = re.compile(r"\\\n +")
FUNCTION = re.compile(r"^(?:pub(?:\(crate\))? )?fn (\w+)\(.*?^}", re.MULTILINE | re.DOTALL)
NAMED = re.compile(r'"(\w+)" (?:if \w+ )?=> Some\(')
# What lists the fields that a request may have.
ONLY = re.compile(r'only(?:_both)?\(value, (?:outer, )?&\[([^\]]*)\]\)')
TEXT = re.compile(r'"([^"]*)"')
# One of several kinds of marks, with what is done for it.
ARM = re.compile(r"^ +(?:Kind|Mark|MarkKey)::(\w+)(?:\(\w+\))? => (?:\{(.*?)^        }|([^\n]*),$)", re.MULTILINE | re.DOTALL)


def crate(path):
    return text("crates", *path.split("/"))


def constants(path):
    """The numbers that a source names."""
    return {name: int(value.replace("_", "")) for name, value in CONSTANT.findall(text(path))}


def refusals():
    """The number of each refusal, by its name."""
    return constants("crates/fixed_numbers/src/refusals.rt")


def words():
    """Each number with each word that a type of refusals gives it."""
    numbers, found = refusals(), set()
    for path in sorted(glob.glob(os.path.join(ROOT, "crates", "*", "src", "*.rt"))):
        source = text(path)
        named = {variant: word for word, variant in WORDED.findall(source)} | dict(SAID.findall(source))
        found |= {(numbers[name], named[variant]) for variant, name in NUMBERED.findall(source) if variant in named and name in numbers}
    return found


def session_words():
    """The word of each number that a session is answered."""
    source, numbers = crate("session_lines/src/refusal.rt"), refusals()
    said = dict(SAID.findall(source))
    return {numbers[name]: said[variant] for variant, name in NUMBERED.findall(source)}


def ends():
    """The numbers of refusals that end the program."""
    numbers = refusals()
    return sorted(numbers[name] for _, name in NUMBERED.findall(crate("store_orders/src/fault.rt")) if name in numbers)


def sentences():
    """What the program says on a terminal, by the name of the sentence: its numbers, whether it is for one cause of them, and its words."""
    found = SENTENCE.findall(crate("store_orders/src/sentence.rt"))
    return {name: ([int(number) for number in numbers.split(", ")], bool(cause), CUT.sub("", said)) for numbers, cause, said, name in found}


def names(path):
    """The names that a source gives things, in order."""
    return list(dict.fromkeys(NAMED.findall(crate(path))))


def functions(*files):
    """The text of each function of the requests' sources."""
    return {found[1]: found[0] for file in files for found in FUNCTION.finditer(crate(f"session_lines/src/{file}.rt"))}


def listed(source):
    """The fields that are allowed, for each time that a function says so."""
    return [TEXT.findall(fields) for fields in ONLY.findall(source)]


def requests():
    """The fields that each request may have, by its name; of marks by each kind too, and of a watch each way to ask."""
    source = functions("request", "reading", "edits", "one_change")
    asked = re.findall(r"Verb::(\w+) => (?:\{\n(.*?)\n        }|(\w+)\()", source["request"], re.DOTALL)
    found = {verb.lower(): listed(block or source[name])[0] for verb, block, name in asked if verb != "Unmark"}
    outer = TEXT.findall(re.search(r"change\(alloc, value, verb, &\[(.*?)\]\)", source["edit"])[1])
    found |= {op: outer + listed(source[op])[0] for op in ("insert", "delete")}
    for op, name in (("mark", "added"), ("unmark", "removed")):
        found |= {f"{op} {kind.lower()}": outer + listed(block)[0] for kind, block, _ in ARM.findall(source[name])}
    watch = functions("watch")
    return found | {"watch": listed(watch["one"])[0], "watch docs": listed(watch["several"])[0]}


def arms(path, name):
    """What a function does for each kind of marks."""
    source = {found[1]: found[0] for found in re.finditer(r"^ *(?:pub(?:\(crate\))? )?fn (\w+)\(.*?^ *}\n\n", crate(path), re.MULTILINE | re.DOTALL)}
    return {kind.lower(): block or alone for kind, block, alone in ARM.findall(source[name])}


def mark_bytes():
    """The byte of each kind of marks in a record."""
    return {kind: int(re.search(r"put_byte\((\d+), out\)", done)[1]) for kind, done in arms("change_codec/src/mark.rt", "put_mark").items()}


def growing():
    """The kinds of marks whose end is before the next character, so that they grow."""
    found = re.search(r"match key \{\s+((?:MarkKey::\w+(?: \| )?)+) => End::before", crate("doc_core/src/make_mark.rt"))
    return [kind.lower() for kind in re.findall(r"MarkKey::(\w+)", found[1])]
