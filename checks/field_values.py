"""Values of each type of field in docs/protocol.json: those that its rule takes, at both of its ends, and those beyond them."""

from agreed import LIMITS, TABLE
from program import REPLICA

WHOLE, COUNTER, EDIT, PLACES, EDITS = (LIMITS[name] for name in ("whole", "counter", "edit_characters", "places", "edits"))
URL, WATCHED = LIMITS["url_bytes"], LIMITS["watched"]
NIL = "00000000-0000-0000-0000-000000000000"
AFTER = f"a{COUNTER}@{REPLICA}"
TYPED = {"op": "insert", "at": 0, "text": "a"}
# What no type takes.
NEVER = (None, 1.5, {})
NO_NUMBERS = (-1, WHOLE + 1, "1", True, [])
NO_TEXTS = ("", 1, True, [])
NO_PLACES = ("", "a", f"a0@{REPLICA}", f"a{COUNTER + 1}@{REPLICA}", f"c1@{REPLICA}", f"a1@{NIL}", f"a1@{REPLICA[:-1]}")
NO_IDS = (*NO_TEXTS, "c1", REPLICA[:-1], f"{REPLICA}0")
ID_FORMS = (REPLICA, REPLICA.upper(), REPLICA.replace("-", ""), f"{{{REPLICA}}}", f"urn:uuid:{REPLICA}")
# For each type the values that it takes, and those that it doesn't.
VALUES = {
    "document": ((1, WHOLE), (0, *NO_NUMBERS)),
    "count": ((1, WHOLE), (0, *NO_NUMBERS)),
    "number": ((0, WHOLE), NO_NUMBERS),
    "place": ((0, WHOLE, "start", "end", AFTER, f"b1@{REPLICA.upper()}"), (*NO_NUMBERS, *NO_PLACES)),
    "text": (("a", "\u20ac" * EDIT, "a" * (EDIT + 1)), NO_TEXTS),
    "sought": (("a", "\u20ac" * EDIT), (*NO_TEXTS, "a" * (EDIT + 1))),
    "url": (("a", "a" * URL, "\u00e9" * (URL // 2)), (*NO_TEXTS, "a" * (URL + 1), "a" + "\u00e9" * (URL // 2))),
    "uuid": ((*ID_FORMS, NIL), NO_IDS),
    "token": (ID_FORMS, (*NO_IDS, NIL, f"urn:uuid:{NIL}")),
    "numbers": (([0], [WHOLE], [0] * PLACES), ([], [0] * (PLACES + 1), [-1], [WHOLE + 1], [0, "1"], 0, "start")),
    "lasting": ((["start"], [AFTER, "end"], ["start"] * PLACES), ([], ["start"] * (PLACES + 1), [0], "start", *([it] for it in NO_PLACES))),
    "edits": (([TYPED], [TYPED] * EDITS), ([], [TYPED] * (EDITS + 1), [{}], ["a"], TYPED, "a")),
    "boolean": ((True, False), ("true", 1, "")),
    "documents": (("all", [1], [WHOLE], [1] * WATCHED), ([], [0], [1] * (WATCHED + 1), [WHOLE + 1], "every", 1, "")),
}
for name, kind in TABLE["types"].items():
    if "words" in kind:
        VALUES[name] = tuple(kind["words"]), (*NO_TEXTS, kind["words"][0].upper(), kind["words"][0] + "s")


def taken(kind):
    return VALUES[kind][0]


def refused(kind):
    return (*VALUES[kind][1], *NEVER)
