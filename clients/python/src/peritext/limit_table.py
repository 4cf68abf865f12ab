# Made of docs/protocol.json by `python3 tools/tables.py`: change that file, and not this one.
"""The limits that a request has to keep."""

# The limit of characters that an edit puts in or takes away, or that `find` looks for.
EDIT_CHARACTERS = 256
# The limit of changes in a line of `edits`.
EDITS = 1_024
# The limit of bytes of a link's URL.
URL_BYTES = 1_024
# The limit of bytes of a session's line before its LF.
LINE_BYTES = 65_536
# The limit of a whole number of a request.
WHOLE = 4_294_967_295
# The limit of the counter of an id.
COUNTER = 281_474_976_710_655
# The limit of places that `anchors` or `places` asks for.
PLACES = 256
# The limit of documents that a `watch` lists.
WATCHED = 1_024
# The limit of places that `find` answers.
FOUND = 1_024
# The limit of characters that a line takes away, where a client parts the edits: so many can wait together in any file.
TAKEN_CHARACTERS = 2_048
