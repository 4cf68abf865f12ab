"""Notes on the command line, a document each, in one file: python3 examples/notes.py FILE [COMMAND WORDS]

    add Buy milk       a new note, whose number is printed
    list [milk]        the notes (with these words): their numbers and first lines; so it is without a command
    show 1             a note
    more 1 and bread   a line more
    drop 1             takes its text away
"""

import os
import sys

import peritext

PROGRAM = os.environ.get("PERITEXT", "peritext")


def notes(session):
    """Each note with its number. The first document that nobody wrote comes after the last of them."""
    number = 1
    while (reading := session.document(number).read()).rev > 0:
        yield number, reading.text
        number += 1


def main(file, command="list", *words):
    if not os.path.exists(file):
        peritext.init(file, program=PROGRAM)
    with peritext.open(file, program=PROGRAM) as session:
        said = " ".join(words)
        if command == "add":
            number = sum(1 for _ in notes(session)) + 1
            session.document(number).insert(0, said)
            return print(number)
        if command == "list":
            for number, text in notes(session):
                if text and said.lower() in text.lower():
                    print(f"{number:4}  {text.splitlines()[0]}")
            return None
        document = session.document(int(words[0]))
        text, rev = document.read()
        if command == "show":
            return print(text)
        if command == "more":
            return document.insert("end", "\n" + " ".join(words[1:]))
        if command == "drop":
            return document.delete(0, len(text), rev)
        raise ValueError(command)


if __name__ == "__main__":
    if "--help" in sys.argv:
        sys.exit(print(__doc__))
    try:
        main(*sys.argv[1:])
    except (IndexError, TypeError, ValueError):
        sys.exit(__doc__)
    except (peritext.Refused, peritext.Ended) as error:
        sys.exit(f"notes: {error}")
