"""Files that break one rule each, with the number that is due."""

import page_file
from program import PAGE, REPLICA, fault, insert, line, run, write
from words import FIRST, MADE, NAME, ONE, SECOND, TWO, record, slot, table


def with_byte(data, at, value):
    return data[:at] + bytes([value]) + data[at + 1 :]


def with_stream(stream, count):
    """The file of a second root with this stream on one page."""
    return slot(1) + slot(2, len(stream), count, (3,)) + stream.ljust(PAGE, b"\0") + table(2)


OTHER = NAME[:15] + b"\2"
REMOVE = b"\0\0\0\x4f\2" + (1).to_bytes(4, "big") + (2).to_bytes(8, "big") + NAME + b"\1" + NAME + (1).to_bytes(8, "big")
REMOVE_FIRST = (len(REMOVE) - 4 + 24).to_bytes(4, "big") + REMOVE[4:] + (1).to_bytes(8, "big") + NAME

BROKEN = [
    ("no slots", ONE[:8191], 42),
    ("both gates closed", with_byte(with_byte(ONE, 0, 0), PAGE, 2), 42),
    ("equal versions", with_byte(ONE, 4119, 1), 43),
    ("another magic", with_byte(MADE, 15, 0x34), 43),
    ("version 0", with_byte(MADE, 23, 0), 43),
    ("nil replica", MADE[:24] + bytes(16) + MADE[40:], 43),
    ("a stream over 2^30", with_byte(MADE, 43, 0x41), 43),
    ("operations over 2^24", with_byte(MADE, 52, 2), 43),
    ("a table too many", with_byte(MADE, 59, 1), 43),
    ("bytes 60 to 63", with_byte(MADE, 63, 1), 43),
    ("the rest of the slot", with_byte(MADE, 4095, 1), 43),
    ("table page below 2", with_byte(ONE, 4163, 1), 43),
    ("table page past the file", with_byte(ONE, 4163, 4), 43),
    ("table page cut", ONE[:12288], 43),
    ("data page below 2", with_byte(ONE, 12291, 1), 45),
    ("data page that is the table", with_byte(ONE, 12291, 3), 45),
    ("data page past the file", with_byte(ONE, 12291, 4), 45),
    ("a number behind the data pages", with_byte(ONE, 12295, 1), 45),
    ("the rest of the data page", with_byte(ONE, 8231, 1), 46),
    ("a byte of rest at the end", with_byte(ONE, 12287, 1), 46),
    ("a surrogate", with_byte(ONE, 8229, 0xD8), 46),
    ("a length too small", with_byte(ONE, 8195, 0x20), 46),
    ("an unknown kind", with_byte(ONE, 8196, 6), 46),
    ("one operation more", with_byte(ONE, 4096 + 55, 2), 46),
    ("operations with an empty stream", with_byte(MADE, 55, 1), 46),
    ("document 0", with_byte(ONE, 8200, 0), 47),
    ("not ready", with_stream(SECOND, 1), 47),
    ("a counter that doesn't rise", with_stream(FIRST + SECOND[:16] + b"\1" + SECOND[17:], 2), 47),
    ("a character that isn't there", with_stream(FIRST + record(3, 1, 2, "b"), 2), 47),
    ("an operation twice", with_stream(FIRST + FIRST, 2), 47),
]

SOUND = [
    ("the new file", MADE), ("one operation", ONE), ("two operations", TWO),
    ("a torn gate", with_byte(TWO, PAGE, 7)), ("bytes 1 to 7", with_byte(ONE, PAGE + 3, 9)),
    ("a stale body of any bytes", ONE[:8] + b"\xff" * 8 + ONE[16:]), ("pages behind", ONE + bytes(PAGE + 5)),
    ("a counter that leaps", with_stream(record(7, 0, 0, "a"), 1)),
    ("a removed character", with_stream(FIRST + REMOVE_FIRST, 2)),
]


# Strong over the one character of the text: from just before it to the end of the text.
STRONG = bytes.fromhex("00000051" "03" "00000001" "0000000000000002") + NAME + b"\1" + NAME + (1).to_bytes(8, "big") \
    + bytes.fromhex("01" "01" "0000000000000001") + NAME + b"\3"


def check_a_mark(checks, program):
    """The record of a mark that a session puts on a text, to the byte."""
    run(program, "init", "one_mark", "--replica", REPLICA)
    run(program, "edit", "one_mark", lines=insert(0, "a") + line(op="mark", doc=1, **{"from": 0, "to": 1}, kind="strong"))
    with open("one_mark", "rb") as file:
        checks.same("the record of a mark", page_file.stream(file.read())[1].hex(), (FIRST + STRONG).hex())


def expected(data):
    """What a dump of document 1 gives, by the plain reader: a refusal's number, or the text."""
    try:
        return page_file.text(page_file.image(data)[1], 1)
    except page_file.Refused as refused:
        return refused.number


def check(checks, program, _until):
    check_a_mark(checks, program)
    for what, data, due in BROKEN:
        checks.same(f"the plain reader, {what}", expected(data), due)
        write("crafted", data)
        checks.same(f"dump, {what}", run(program, "dump", "crafted", "1"), fault(due))
        checks.same(f"edit, {what}", run(program, "edit", "crafted"), fault(due))
    for what, data in SOUND:
        wanted = expected(data)
        write("crafted", data)
        status, output, faults = run(program, "dump", "crafted", "1")
        checks.same(f"status, {what}", (status, faults), (0, b""))
        checks.holds(f"text, {what}", f'"text":"{wanted}"}}\n'.encode() in output)
