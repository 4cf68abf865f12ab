"""`list` and `export`: what they tell of a file, and that parsers which others wrote find a document's paragraphs, text and marks in its
Markdown (Debian's `cmark`) and in its HTML (`html5lib`); with `--breaks` all in one paragraph.
"""

import json
import random
import re
import shutil
import subprocess
import sys
import urllib.parse

from locks import Session
from page_file import root
from program import REPLICA, delete, fault, insert, line, new_file, read, run

COMMENT = "0f5d2c4e-9a1b-4c3d-8e7f-112233445566"
OTHER = "00000000-0000-0000-0000-000000000000"
URL = "https://example.org/a_b?c=<d>&e=(f)\\g[h]*i*'\"#j"
TAME = ("https://a.b/c", "HTTP://a.b", "mailto:a@b.c", "/a:b", "a/b:c", "?a:b", "#a:b", "notes", "//a.b", URL)
WILD = ("javascript:alert(1)", "JavaScript:alert(1)", " javascript:alert(1)", "java\tscript:alert(1)", "data:text/html,a", "vbscript:a", ":a")
HOSTILE = (
    "*a* _b_ **c** `d` ~~e~~ [f](g) ![h](i) <b>j</b> &amp; &#65; k\\*l\\\\ <!-- m --> | n | ^o^ $p$ q@r.s https://t.u",
    "# a\n## b\n- c\n+ d\n* e\n1. f\n1) g\n23456. h\n> i\n---\n***\n===\n```\nj\n~~~\n    k\n\tl\n<div>\nm\n| n |\n:-\n[o]: p\n",
    "a\n\n\nb\n", "\n", " ", "  a  ", "a  \n  b", "\na", " \n ", "\\", "a\\", "\\\n", "a&b;c", "&lt;", "1", "1.", "1\n.", "12 .", "!", "![",
    "a\rb\r\nc", "a\tb\u000bc\u000cd", "\u00a0a\u2003b\u3000", "\U0001f600\U0001f1eb\U0001f1f7e\u0301\u200d\u200f\u05d0", "\u2028a\u2029\u0085",
    "\n\n\n", "\n\na", "a \n b", "a\n \nb", "\n-\n", "\n\n---\n\n===", "-->\n\n<!--", "a\n\n    b\n\tc", "[a]: b\n\n[a]", " \n\n ",
    "</div></span></p><script>alert(1)</script>", "]]>", "<?a?>", "<![CDATA[a]]>", "\"'`\"'",
)
LETTERS = tuple("aZ9\u00e9\u0436\u6f22\u20ac\u24b6 \n\n\n\n\t*_`[]()<>&!#+-=.:|~\\\"'1\u00a0\U0001f600")
ROUNDS = 150


def mark(kind, start, end, doc, **more):
    return line(op="mark", doc=doc, **{"from": start}, to=end, kind=kind, **more)


def typed(text, doc):
    """The requests that put a text in, 256 characters at a time."""
    return b"".join(insert(k, text[k:k + 256], doc) for k in range(0, len(text), 256))


# What a character has that has no marks, and where an empty paragraph stands in Markdown.
NO_MARKS = (False, False, None, frozenset())
EMPTY = "<!-- -->"
HEAD, FOOT = '<!doctype html><meta charset="utf-8"><div style="white-space: pre-wrap">', "</div>\n"


def edits(checks, program, name, lines):
    status, output, faults = run(program, "edit", name, lines=lines)
    checks.holds(f"the edits of {name}", status == 0 and not faults and b'"ok":false' not in output)


def spans_of(program, name, doc):
    return json.loads(run(program, "dump", name, str(doc))[1].splitlines()[1])["spans"]


def is_tame(url):
    scheme = re.match(r"([^:/?#]*):", url)
    return not scheme or scheme.group(1).lower() in ("http", "https", "mailto")


def characters(spans):
    """Each character with its marks, as the program shows them in a dump."""
    found = []
    for span in spans:
        link = span.get("link")
        marks = (bool(span.get("strong")), bool(span.get("em")), link if link is None or is_tame(link) else None,
                 frozenset(span.get("comments", ())))
        found += [(character, marks) for character in span["text"]]
    return found


def plain(url):
    """An address without its percent signs' meaning: `cmark` writes some characters by these."""
    return None if url is None else urllib.parse.unquote(url)


def shown(node, marks=NO_MARKS):
    """Each character of a tree, with its marks."""
    found = [(character, marks) for character in node.text or ""]
    for child in node:
        strong, em, link, comments = marks
        tag = str(child.tag).rsplit("}", 1)[-1]
        if tag == "br":
            found.append(("\n", None))
        elif tag == "strong":
            strong = True
        elif tag == "em":
            em = True
        elif tag == "a":
            link = child.get("href")
        elif tag == "span" and child.get("data-comment"):
            comments = comments | {child.get("data-comment")}
        elif tag not in ("span", "p", "div"):
            found.append(("<" + tag + ">", marks))
        if isinstance(child.tag, str):
            found += shown(child, (strong, em, link, comments))
        tail = child.tail or ""
        if tag == "br":
            tail = tail[1:] if tail.startswith("\n") else tail
        found += [(character, marks) for character in tail]
    return found


def parsed(html5lib, page):
    return html5lib.parse(page, treebuilder="etree", namespaceHTMLElements=False)


def of_html(html5lib, page):
    """The characters of a page that the program wrote without paragraphs."""
    body = parsed(html5lib, page).find("body")
    return shown(body[0]) if len(body) == 1 and body[0].tag == "div" else "not one block"


def rendered(text):
    """What `cmark` makes of Markdown."""
    page = subprocess.run(["cmark", "--unsafe"], input=text, capture_output=True, check=True, timeout=60).stdout
    return page.replace(b"\r", b"&#13;").decode()


def of_markdown(html5lib, text):
    """The characters of Markdown without paragraphs."""
    page = rendered(text)
    body = parsed(html5lib, page).find("body")
    if not len(body):
        return []
    return shown(body[0]) if len(body) == 1 and body[0].tag == "p" else "not one paragraph: " + page


def joined(paragraphs):
    """The characters of paragraphs, with a line feed between two."""
    first, *others = paragraphs
    return first + [it for paragraph in others for it in [("\n", NO_MARKS), *paragraph]]


def parted(found):
    """The characters of a text, whose line feeds end paragraphs and have no marks."""
    return [("\n", NO_MARKS) if character == "\n" else (character, marks) for character, marks in found]


def of_paragraphs(html5lib, page):
    """The characters of a page that the program wrote with paragraphs."""
    body = parsed(html5lib, page).find("body")
    if len(body) != 1 or body[0].tag != "div" or body[0].text or any(child.tag != "p" for child in body[0]):
        return "not one block of paragraphs"
    tails = [child.tail or "" for child in body[0]]
    if any(tails):
        return f"between paragraphs: {tails}"
    *before, last = map(shown, body[0])
    ends = [paragraph.pop()[0] if paragraph else "" for paragraph in before]
    return joined([*before, last]) if ends == ["\n"] * len(ends) else f"at the ends of paragraphs: {ends}"


def of_markdown_paragraphs(html5lib, text):
    """The characters of Markdown with paragraphs: a comment of its own is an empty one."""
    page = rendered(text)
    blocks = list(parsed(html5lib, "<!doctype html><body>" + page).find("body"))
    is_empty = [not isinstance(child.tag, str) and child.text == " " for child in blocks]
    if not blocks or not all(empty or child.tag == "p" for empty, child in zip(is_empty, blocks)):
        return "not only paragraphs: " + page
    return joined([] if empty else shown(child) for empty, child in zip(is_empty, blocks))


def compare(checks, what, found, wanted, all_marks):
    """The same characters with the same marks; those of white space may be no emphasis."""
    if isinstance(found, str):
        return checks.same(what, found, "text")
    checks.same(f"{what}: text", "".join(c for c, _ in found), "".join(c.replace("\0", "\ufffd") for c, _ in wanted))
    for (character, has), (_, should) in zip(found, wanted):
        if all_marks or not character.isspace():
            if has is None or (has[:2], plain(has[2]), has[3]) != (should[:2], plain(should[2]), should[3]):
                return checks.same(f"{what}: marks of {character!r}", has, should)
    return checks.holds(f"{what}: marks", True)


def check_document(checks, program, name, doc, html5lib, has_cmark):
    wanted = characters(spans_of(program, name, doc))
    text = "".join(character for character, _ in wanted)
    checks.same(f"text of {doc}", run(program, "export", name, str(doc)), (0, text.encode(), b""))
    checks.same(f"text of {doc} with breaks", run(program, "export", name, str(doc), "--breaks"), (0, text.encode(), b""))

    def exported(*words):
        return run(program, "export", name, str(doc), "--to", *words)[1]

    page, markdown = exported("html").decode(), exported("markdown")
    checks.same(f"paragraphs in the html of {doc} {text!r}", page.count("<p>"), text.count("\n") + 1)
    if html5lib:
        compare(checks, f"html of {doc} {text!r}", of_paragraphs(html5lib, page), parted(wanted), True)
        compare(checks, f"html of {doc} with breaks {text!r}", of_html(html5lib, exported("html", "--breaks").decode()), wanted, True)
    if html5lib and has_cmark:
        compare(checks, f"markdown of {doc} {text!r} {markdown!r}", of_markdown_paragraphs(html5lib, markdown), parted(wanted), False)
        broken = exported("markdown", "--breaks")
        compare(checks, f"markdown of {doc} with breaks {text!r} {broken!r}", of_markdown(html5lib, broken), wanted, False)


def room(size, documents, operations, replicas):
    """The last line of a list."""
    return line(bytes=size, bytes_limit=1 << 30, documents=documents, documents_limit=1024, ok=True, operations=operations,
                operations_limit=1 << 24, replicas=replicas, replicas_limit=16)


def check_history(checks, program):
    """The versions of documents of one replica, of which one has four operations and one two."""
    for doc, cuts, words in ((7, (4,), ()), (7, (3, 4), ("--every", "3")), (1, (1, 2), ("--every=1",)), (9, (), ())):
        versions = [{"ops": rev - before, "replica": REPLICA, "rev": rev} for before, rev in zip((0, *cuts), cuts)]
        wanted = line(ok=True, rev=cuts[-1] if cuts else 0, versions=versions)
        checks.same(f"history of {doc} {words}", run(program, "history", "listed", str(doc), *words), (0, wanted, b""))
    for every in ("0", "4294967296", "x", ""):
        checks.same(f"history by {every!r}", run(program, "history", "listed", "7", f"--every={every}"), fault(4))
    checks.same("history of document 0", run(program, "history", "listed", "0"), fault(4))
    checks.same("history without a document", run(program, "history", "listed")[0], 2)
    checks.same("history of no file", run(program, "history", "none", "7"), fault(54))


def check_list(checks, program):
    new_file(program, "listed")
    checks.same("list of an empty file", run(program, "list", "listed"), (0, room(0, 0, 0, 0), b""))
    edits(checks, program, "listed", insert(0, "abc", 7) + insert(0, "de", 1) + delete(1, 1, 7))
    found = run(program, "list", "listed")
    # Against the limit counts a record for each operation: an insert of 39 bytes, 24 more behind others and 24 more behind a
    # character, and a remove of 82. The file holds "abc" in one of 49, and "de" in one of 69.
    size = 39 + 87 + 87 + 63 + 87 + 82
    lines = line(chars=2, doc=1, ok=True, ops=2) + line(chars=2, doc=7, ok=True, ops=4) + room(size, 2, 6, 1)
    checks.same("list of two documents", found, (0, lines, b""))
    data = read("listed")
    checks.same("the bytes of its stream", root(data)[1], 49 + 69 + 82)
    check_history(checks, program)
    checks.same("list of no file", run(program, "list", "none"), fault(54))
    checks.same("export of no file", run(program, "export", "none", "1"), fault(54))
    checks.same("export of another document", run(program, "export", "listed", "9"), (0, b"", b""))
    for form, breaks, page in (("markdown", [], EMPTY + "\n"), ("markdown", ["--breaks"], "\n"), ("html", [], f"{HEAD}<p></p>{FOOT}"),
                               ("html", ["--breaks"], HEAD + FOOT), ("text", ["--breaks"], "")):
        found = run(program, "export", "listed", "9", "--to", form, *breaks)
        checks.same(f"another document as {form} {breaks}", found, (0, page.encode(), b""))
    for words in (["export", "listed", "0"], ["export", "listed", "1", "--to", "pdf"], ["export", "listed", "1", "--to", ""]):
        checks.same(f"{words}", run(program, *words), fault(4))
    for words in (["list"], ["list", "a", "b"], ["export", "listed"], ["export", "listed", "1", "--to"],
                  ["export", "listed", "1", "--breaks", "--breaks"], ["export", "listed", "1", "--breaks=yes"]):
        checks.same(f"status of {words}", run(program, *words)[0], 2)
    for words in (["list", "--help"], ["export", "--help"], ["history", "--help"]):
        checks.holds(f"an example in {words}", b"Example" in run(program, *words)[1])
    checks.holds("no number to copy in the help of init", not re.search(rb"[0-9a-f]{8}-[0-9a-f]{4}", run(program, "init", "--help")[1]))
    session = Session(program, "listed")
    session.ask(line(op="status"))
    checks.same("list of a held file", run(program, "list", "listed"), fault(54))
    checks.same("history of a held file", run(program, "history", "listed", "7"), fault(54))
    checks.same("export of a held file", run(program, "export", "listed", "1"), fault(54))
    session.end()
    checks.same("they change nothing", read("listed"), data)


def check_bytes(checks, program):
    """Both forms of a document of four paragraphs to the byte: a link goes over all of them, and the second one is empty."""
    new_file(program, "parted")
    edits(checks, program, "parted", insert(0, "a \n\n# b\nc") + mark("link", 0, 9, 1, url="d") + mark("strong", 0, 2, 1))
    link = '<a href="d">'
    for form, breaks, page in (
        ("html", [], f"{HEAD}<p>{link}<strong>a </strong></a>\n</p><p>\n</p><p>{link}# b</a>\n</p><p>{link}c</a></p>{FOOT}"),
        ("html", ["--breaks"], f"{HEAD}{link}<strong>a </strong></a>{link}\n\n# b\nc</a>{FOOT}"),
        ("markdown", [], f"[**a** ](<d>)\n\n{EMPTY}\n\n[# b](<d>)\n\n[c](<d>)\n"),
        ("markdown", ["--breaks"], "[**a** ](<d>)[\\\n\\\n\\# b\\\nc](<d>)\n"),
    ):
        checks.same(f"four paragraphs as {form} {breaks}", run(program, "export", "parted", "1", "--to", form, *breaks), (0, page.encode(), b""))


def marked(doc):
    """A text with all marks, one over another."""
    text = "The quick, brown fox; jumps over the lazy dog!"
    return typed(text, doc) + b"".join([
        mark("strong", 4, 8, doc), mark("em", 8, 19, doc), mark("strong", 15, 30, doc), mark("link", 10, 25, doc, url=URL),
        mark("comment", 0, 12, doc, id=COMMENT), mark("comment", 6, 40, doc, id=OTHER), mark("em", 44, 45, doc),
    ])


def links(first):
    """A document for each address, which a whole text leads to."""
    return b"".join(typed("a link", first + k) + mark("link", 0, 5, first + k, url=url) for k, url in enumerate(TAME + WILD))


def hostile(first):
    """Two documents for each hostile text: as it is, and with marks on parts of it."""
    lines = b""
    for k, text in enumerate(HOSTILE):
        doc, end = first + 2 * k, len(text)
        lines += typed(text, doc) + typed(text, doc + 1)
        lines += mark("strong", 0, end, doc + 1) + mark("em", end // 2, end, doc + 1)
        lines += mark("comment", end // 3, end // 2 + 1, doc + 1, id=COMMENT)
    return lines


def drawn(first, chance):
    """Documents of letters that were drawn, with marks that were drawn."""
    lines = b""
    for doc in range(first, first + ROUNDS):
        text = "".join(chance.choice(LETTERS) for _ in range(chance.randint(1, 30)))
        lines += typed(text, doc)
        for _ in range(chance.randint(0, 6)):
            start = chance.randrange(len(text))
            end = chance.randint(start + 1, len(text))
            kind = chance.choice(["strong", "strong", "em", "em", "link", "comment"])
            more = {"url": chance.choice(TAME + WILD)} if kind == "link" else {"id": chance.choice([COMMENT, OTHER])} if kind == "comment" else {}
            lines += mark(kind, start, end, doc, **more)
    return lines


def check_exports(checks, program):
    # Debian's packages, where another Python runs this
    sys.path.append("/usr/lib/python3/dist-packages")
    try:
        import html5lib
    except ImportError:
        html5lib = None
        checks.skip("exports through parsers", "no html5lib (apt-get install python3-html5lib)")
    has_cmark = shutil.which("cmark") is not None
    if not has_cmark:
        checks.skip("Markdown through a parser", "no cmark (apt-get install cmark)")
    new_file(program, "exported")
    seed = random.randrange(1 << 30)
    print(f"exports: drawn with the seed {seed}")
    edits(checks, program, "exported", marked(1) + links(100) + hostile(200) + drawn(400, random.Random(seed)))
    docs = [1, *range(100, 100 + len(TAME + WILD)), *range(200, 200 + 2 * len(HOSTILE)), *range(400, 400 + ROUNDS)]
    for doc in docs:
        check_document(checks, program, "exported", doc, html5lib, has_cmark)


def check_past(checks, program):
    """A document as it was at each number of operations, in each form, also where another document was edited between."""
    new_file(program, "past")
    requests = [insert(0, "one two"), mark("strong", 0, 3, 1), insert(0, "x", 2), delete(3, 1), insert(3, "\n"), mark("em", 0, 8, 1), line(op="spans", doc=1)]
    requests += [insert(7, "!"), delete(0, 2)]
    forms = ("text", "markdown", "html")
    asked = [line(op="export", doc=1, to=form) for form in forms]
    was = {0: ["" for _ in forms]}
    session = Session(program, "past")
    for request in requests:
        session.ask(request)
        found = [session.ask(it) for it in asked]
        was[found[0]["rev"]] = [it["text"] for it in found]
    session.end()
    revs = sorted(was)
    for rev in revs[1:]:
        for form, text in zip(forms, was[rev]):
            checks.same(f"{form} at {rev}", run(program, "export", "past", "1", "--to", form, "--at-rev", str(rev)), (0, text.encode(), b""))
    checks.same("none of it", run(program, "export", "past", "1", "--at-rev", "0"), (0, b"", b""))
    checks.same("between two edits", run(program, "export", "past", "1", "--at-rev", "3"), (0, b"one", b""))
    before = read("past")
    for word in (str(revs[-1] + 1), "4294967295", "4294967296", "-1", "1x", ""):
        checks.same(f"no such number: {word!r}", run(program, "export", "past", "1", f"--at-rev={word}"), fault(4))
    checks.same("another document has fewer", run(program, "export", "past", "2", "--at-rev", "2"), fault(4))
    checks.same("nothing is written", read("past"), before)


def check(checks, program, _until):
    check_list(checks, program)
    check_bytes(checks, program)
    check_exports(checks, program)
    check_past(checks, program)
