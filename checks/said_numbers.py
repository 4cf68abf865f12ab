"""The numbers of docs/protocol.json that documents say in their sentences: the words beside each, in which `{line_bytes:,}` is 65,536, `{bytes:^}`
is 2^30, and `{bytes:unit}` is 1 GiB."""

from agreed import LIMITS, SIZES, TABLE, text
from protocol import listed

UNITS = {2**30: "GiB", 2**20: "MiB"}


class Number(int):
    """A number that can be said as a power of two, or by a unit of bytes."""

    def __format__(self, how):
        if how == "^":
            return f"2^{self.bit_length()} - 1" if self & 1 else f"2^{self.bit_length() - 1}"
        if how == "unit":
            size = next(size for size in UNITS if self % size == 0)
            return f"{self // size} {UNITS[size]}"
        return super().__format__(how)


FORMATS = (
    "A file has pages of {page:,} bytes.", "length of the stream, at most {bytes:^} |", "number of operations, at most {operations:^} |",
    "A stream of L bytes has P = L / {page:,} data pages", "T = P / {table_numbers:,} table pages, rounded up, at most {table_pages}.",
    "A table page is {table_numbers:,} numbers of 4 bytes", "fewer than {slots:,} bytes or no gate is open",
    "take more than {bytes:^} bytes as single records", "a run of 2 to {edit_characters} characters",
    "from {shortest_record} to {record:,}, or to {token_record:,} with a token", "| counter | 8 | 1 to {counter:^} | 32 |",
    "| number of deps | 1 | 0 to {replicas} | 32 |", "each: count | 8 | 1 to {own_operations:^} | 32 |", "if the number isn't 2 to {edit_characters}",
    "the last counter would pass {counter:^}, the last own count {own_operations:^}", "a length of 2 bytes (1 to {url_bytes:,}, else 32)",
    "In every id the counter is 1 to {counter:^}", "lengths above {record:,} are 30 in the first two",
    "4 bytes, from 1 to {frame:,} (else 25, at once)", "number of entries, 1 byte, 0 to {replicas};",
    "its count, 8 bytes, from 1 to {own_operations:^}", "number of records, 2 bytes, 1 to {told};",
    "11 if it has more than {line_bytes:,} bytes before its LF", "whole numbers from 1 to {whole:^}", "`since` from 0 to {whole:^}",
    "`kind` is {kinds}", "`url` has 1 to {url_bytes:,} bytes", "the `at` of `anchors` is a list of 1 to {places} such numbers", "`side` is {sides}",
    "the `text` of `find` has at most {edit_characters} characters", "`to` is {forms}", "`anchors` is a list of 1 to {places} places",
    "`edits` is a list of 1 to {edits:,} objects", "`\"all\"` or a list of 1 to {watched:,} numbers", "the first {found:,} of them",
    '"bytes_limit":{bytes},', '"documents_limit":{documents},', '"operations_limit":{operations},', '"replicas_limit":{replicas},',
    '"steps_limit":{steps}}}', "the replicas that have operations in it, at most {replicas}", "serves at most {sessions} sessions and {links} links",
    "sends each LINE, up to {texts},", "by edits of up to {edits:,} changes", "a DOC is decimal digits for 1 to {whole:^}",
    "An ORIGIN, of which there are at most {texts},", "in lower case, at most {origin_bytes} bytes", "more than {texts} LINEs",
    "whose address has over {url_bytes:,} bytes",
)
PROTOCOL = (
    "puts `text`, 1 to {edit_characters} characters,", "takes `count` characters away, 1 to {edit_characters},",
    "`edits` makes 1 to {edits:,} inserts", "at most {edit_characters} characters here too, and a line at most {line_bytes:,} bytes",
    "(by a bound, {waiting_bytes:,} bytes)", "with {whole} in its place", "refused by another number than {kept}.",
    "between two frames of {told} operations", "at most {found:,} are told", '"bytes_limit":{bytes},', '"steps_limit":{steps}}}',
    "in the last of the {sessions} places", "of at most {first_line_bytes:,} bytes", "first line, of at most {watch_bytes:,} bytes",
    "of 1 to {watched:,} documents", "can't have the last of the {sessions}.", "the {sessions} places and the `watch`", "up to {texts} may be named",
    "may have {head_bytes:,} bytes, {head_fields} fields", "A message has at most {message_bytes:,} bytes",
)
OPERATING = (
    "a mark | {operations:,} |", "and 16 for a token | {bytes:unit}:", "replicas whose operations a file has | {replicas} |",
    "documents with operations | {documents:,} |", "merges, commits | {steps:,}, less two |",
    "one request inserts is one record | {waiting_bytes:unit} |",
    "one request | {edit_characters} characters (each of `edits`, of which a line has {edits:,}),",
    "a URL of {url_bytes:,} bytes, a line of {line_bytes:,} bytes |",
    "counted in each span | {listed_comments:,} |", "counted in each step | {listed_comments:,} |", "a watch keeps one of {sessions};",
    "One of the {links} places for links", "Some {journal_lines} lines wait", "who holds the {sessions} places",
)
CLIENTS = (
    "An edit is of at most {edit_characters} characters.", "One line takes {edits:,} edits of at most {edit_characters} characters",
    "and {line_bytes:,} bytes.", "More than {places} go as several requests", "takes 1 to {edit_characters} characters",
    "More than {found:,} places take several requests", "A list has 1 to {watched:,} documents", "all {sessions} places are taken",
)
SAID = {
    "README.md": ("in up to {documents:,} documents", "up to {sessions} sessions and {links} peers"),
    "docs/FORMATS.md": FORMATS,
    "docs/PROTOCOL.md": PROTOCOL,
    "docs/OPERATING.md": OPERATING,
    "docs/DECISIONS.md": ("within {head_bytes:,} bytes, {head_fields} fields",),
    "clients/README.md": CLIENTS,
    "clients/web/README.md": ("a daemon's {sessions} places",),
}


def words_of(kind):
    return listed([f"`{word}`" for word in TABLE["types"][kind]["words"]], "or")


def known():
    """What stands in the braces."""
    numbers = {name: Number(number) for name, number in {**LIMITS, **SIZES}.items()}
    kept = listed([str(it["number"]) for it in TABLE["refusals"] if it.get("again") == "opened anew"], "and")
    return {**numbers, "kinds": words_of("kind"), "sides": words_of("side"), "forms": words_of("form"), "kept": kept}


def missing(path):
    """The sentences that a document should have, and hasn't."""
    page, names = " ".join(text(path).split()), known()
    return [said for said in (each.format(**names) for each in SAID[path]) if said not in page]
