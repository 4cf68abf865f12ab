# Made of docs/protocol.json by `python3 tools/tables.py`: change that file, and not this one.
"""Refusals by their numbers, and what is said of them."""

MEMORY = 1
SYNTAX = 2
REQUEST = 3
FIELD = 4
RANGE = 5
STALE = 6
LIMIT = 7
BUSY = 8
FAILED = 9
STEPS = 10
LINE = 11
STOPPING = 12
# Why, and what to do, by the number of a refusal: what the program itself says on a terminal.
ADVICE = {
    1: "the system gave no memory; try it again, and if that lasts, give the process more",
    2: "the line is no request of docs/PROTOCOL.md; mend what made it",
    3: "the line is no request of docs/PROTOCOL.md; mend what made it",
    4: "a value breaks its rule, as that of a UUID, of a document's number or of a form, or an older program doesn't know a field; mend what wrote it",
    5: "there is no such place in the text; read it anew",
    6: "the document has moved on; read it anew, and make the edit for what is there",
    7: "at most 256 characters in one edit; else the file is full (docs/OPERATING.md, Limits), and can still be read",
    8: "too much waits, or all places for sessions are taken; try again a little later",
    9: "the device failed, and an edit that wasn't answered may be there or not; end the program, look at the disk, open again",
    10: "a million steps since opening; connect again if the daemon opens its file anew, else end the program and start it again",
    11: "the line is no request of docs/PROTOCOL.md; mend what made it",
    12: "the program was told to stop; start it again",
    42: "the file isn't a store, or its making was cut off; make one under another name with init",
    43: "the file isn't what this program wrote; keep a copy, and go on from a peer with a new replica",
    45: "the file isn't what this program wrote; keep a copy, and go on from a peer with a new replica",
    46: "the file isn't what this program wrote; keep a copy, and go on from a peer with a new replica",
    47: "the file isn't what this program wrote; keep a copy, and go on from a peer with a new replica",
    48: "something is in the file already; open it, or choose another name",
    50: "the disk couldn't be read; mend it, and open the file again: what was answered is there",
    51: "the disk couldn't be written; look whether it is full or files may not grow, and open the file again: what was answered is there",
    52: "the disk couldn't be synced; look whether it is full or broken, and open the file again: what was answered is there",
    54: "the file isn't there (make it with init), may not be read and written, or another program has it open: where that is a daemon, connect to its port",
    70: "a port is taken (choose another), or nobody listens where --link points (start that daemon first)",
    71: "standard input or output failed; look at the other end of the pipe",
}
MEND = "mend what wrote it"
FULL = "the file has all the operations, records, documents or replicas that it may have (docs/OPERATING.md, Limits), and can still be read"
LONG = "at most 256 characters in one edit; send it in parts"
MUCH = "what one action takes away waits together for the disk, 2,048 characters in any file: make several, or let it be parted; else"
OLDER = "an older program knows no"
RENEW = "start one that is as new as this client"
TOKEN = "an older program knows no `token`; start one that is as new as this client"
PAST = "an older program knows no `at_rev`; start one that is as new as this client"
PLACE = "an older program takes no places that last in edits; start one that is as new as this client"
ONE_LINE = "one line takes 1,024 edits, of at most 256 characters each, and 65,536 bytes: make several actions, or let it be parted"
