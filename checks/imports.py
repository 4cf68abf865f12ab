"""`import`: text and Markdown that are put in at the end of a document. What our `export` writes comes back, also as `cmark` writes it
anew; of Markdown that was drawn it gives what `cmark` shows; and the time is nearly that of the length, whatever is read.
"""

import json
import random
import re
import shutil
import subprocess
import time
import urllib.parse

import exports
import page_html
from full_disk import limited
from locks import Session
from program import delete, fault, insert, line, new_file, read, run, text_of

ROUNDS = 400
SAME_PAGES = 71
TOKENS = tuple("a b c é 漢 . , ( ) ! * * * ** ** *** _ _ __ ` `` [ [ ] ] ]( ) > & ; \\ \\* \\[ < \" ' ~ + - =".split()) + (
    " ", " ", " ", "  \n", "\\\n", "\n", "\n", "\n\n", "\n\n", "\u00a0", "&amp;", "&lt;", "&#42;", "&#x5f;", "&nbsp;", "&x;", "[a](b)", "[*a*](<b c>)", "](d)", "](<e> 't')",
    "](f \"g\")", "](h(i)j)", "![", "![k](l)", "<http://m.n>", "<o@p.q>", "<i>", "</i>", "<br/>", "\n# ", "\n## ", "\n> ", "\n- ", "\n* ", "\n1. ", "\n2) ",
    "\n    ", "\n  ", "\n```\n", "\n~~~\n", "\n---\n", "\n===\n", "\n***\n", "\n\t", "\n   - ", "\n>> ", "\n- - ", "\r\n",
)
HOSTILE = {
    "stars": "*", "stars apart": "* ", "stars and letters": "*a", "letters and stars": "a*", "both ways": "a**b*", "underscores": "_a ", "opened": "[", "closed": "]",
    "links opened": "[a](", "links": "[a](b)", "images": "![", "nested": "[![", "backticks": "`", "backticks rising": "`a``b", "less": "<", "comments": "<!-- a", "tags": "<a b=\"",
    "instructions": "<?a", "declarations": "<!A", "data": "<![CDATA[", "entities": "&#", "backslashes": "\\", "quotes": "> ", "items": "- ", "numbers": "1. ",
    "spaces": " ", "tabs": "\t", "titles": "[a](b 'c", "stars of links": "*[a](b) ", "deep parentheses": "[a](" + "(" * 40,
}
# A long line of marks, and then lines that stand in all that these began.
DEEP = {"items, and blank lines": "- ", "quotes, and text": "> ", "numbers, and blank lines": "1. "}
LONG = 100_000
# Seconds for the longer of two hostile texts beyond thrice the time of the shorter one: the program is started in them.
START = 2.0


def told(output):
    return json.loads(output)


def put(program, name, doc, text, form="markdown"):
    """Puts a text in a document, and gives what is told."""
    status, output, faults = run(program, "import", name, str(doc), "--from", form, lines=text if isinstance(text, bytes) else text.encode())
    return told(output) if status == 0 and not faults else (status, output, faults)


def spans_of(program, name, doc):
    return exports.spans_of(program, name, doc)


def marked(spans):
    """Each character with its marks."""
    return [(character, (bool(span.get("strong")), bool(span.get("em")), span.get("link"))) for span in spans for character in span["text"]]


def plain(marks):
    """Marks, of which an address stands without its percent signs' meaning."""
    strong, em, link = marks
    return strong, em, None if link is None else urllib.parse.unquote(link)


def without_space(characters):
    """Characters with their marks; white space may have any."""
    return [(character, None if character.isspace() else plain(marks)) for character, marks in characters]


def check_words(checks, program):
    new_file(program, "into")
    checks.same("an import of nothing", run(program, "import", "into", "1", "--from", "text"), (0, b'{"characters":0,"dropped":{},"ok":true}\n', b""))
    checks.same("an import of no Markdown", put(program, "into", 1, " \n\n"), {"characters": 0, "dropped": {}, "ok": True})
    before = read("into")
    checks.same("bytes that are no UTF-8", put(program, "into", 1, b"a\xffb"), fault(4))
    checks.same("a form that isn't known", run(program, "import", "into", "1", "--from", "html", lines=b"a"), fault(4))
    checks.same("document 0", run(program, "import", "into", "0", "--from", "text", lines=b"a"), fault(4))
    checks.same("no file", run(program, "import", "none", "1", "--from", "text", lines=b"a"), fault(54))
    for words in (["import"], ["import", "into"], ["import", "into", "1"], ["import", "into", "1", "--from"]):
        checks.same(f"status of {words}", run(program, *words)[0], 2)
    session = Session(program, "into")
    session.ask(line(op="status"))
    checks.same("a held file", put(program, "into", 1, "a"), fault(54))
    session.end()
    checks.same("they change nothing", read("into"), before)
    checks.holds("an example of import", b"Example" in run(program, "import", "--help")[1])


def check_text(checks, program):
    new_file(program, "texts")
    text = "a\r\n*b*\t\0\n\n\u2028\U0001f600"
    checks.same("text as it stands", put(program, "texts", 1, text, "text"), {"characters": len(text), "dropped": {}, "ok": True})
    checks.same("it is there", text_of(program, "texts"), text)
    checks.same("more text", put(program, "texts", 1, "c", "text"), {"characters": 2, "dropped": {}, "ok": True})
    checks.same("it comes after a line feed", text_of(program, "texts"), text + "\nc")
    long = "".join(random.choice("abc \n") for _ in range(60_000))
    checks.same("a long text", put(program, "texts", 2, long, "text"), {"characters": len(long), "dropped": {}, "ok": True})
    checks.same("all of it", run(program, "export", "texts", "2"), (0, long.encode(), b""))
    short = "*a* **b** [c](d) " * 600
    put(program, "texts", 3, short)
    wanted = [(c, (s, e, u)) for _ in range(600) for c, s, e, u in
              (("a", False, True, None), (" ", False, False, None), ("b", True, False, None), (" ", False, False, None), ("c", False, False, "d"), (" ", False, False, None))]
    checks.same("many marks", marked(spans_of(program, "texts", 3)), wanted[:-1])


def check_marks_there(checks, program):
    """What is put in has no marks of what was there."""
    new_file(program, "there")
    lines = insert(0, "ab") + exports.mark("strong", 0, 2, 1) + exports.mark("em", 1, 2, 1) + exports.mark("link", 0, 2, 1, url="x")
    exports.edits(checks, program, "there", lines + insert(2, "c") + delete(2, 1))
    put(program, "there", 1, "d *e*")
    put(program, "there", 1, "f")
    both = {"strong": True, "link": "x"}
    wanted = [{"text": "a", **both}, {"text": "b", **both, "em": True}, {"text": "\nd "}, {"text": "e", "em": True}, {"text": "\nf"}]
    found = [dict(sorted(span.items())) for span in spans_of(program, "there", 1)]
    checks.same("what is put in has marks of its own alone", found, [dict(sorted(span.items())) for span in wanted])


def check_dropped(checks, program):
    new_file(program, "dropped")
    page = ("# a\n\nb\n===\n\n> c\n\n- d\n- e\n\n1. f\n\n`g` \\\nh  \ni\n\n```\nj\nk\n```\n\n***\n\n<b>l</b>\n\n<div>\nm\n</div>\n\n![n](o)\n\n[p]()\n\n[q][r]\n\n"
            '<span data-comment="00000000-0000-0000-0000-000000000001">s</span><span></span>\n\n<!-- -->\n\nt\n')
    wanted = {"break": 2, "code": 2, "comment": 1, "heading": 2, "html": 3, "image": 1, "link": 1, "list": 3, "quote": 1, "reference": 1, "rule": 1}
    text = "a\nb\nc\nd\ne\nf\ng \nh\ni\nj\nk\nl\nm\nn\np\n[q][r]\ns\n\nt"
    checks.same("what is dropped", put(program, "dropped", 1, page), {"characters": len(text), "dropped": wanted, "ok": True})
    checks.same("what stays of it", text_of(program, "dropped"), text)


def check_refused(checks, program):
    """A disk that is full in the midst of it: what was settled before stays, and the answer is told."""
    new_file(program, "filled")
    text = "".join(random.choice("abc") for _ in range(100_000)).encode()
    status, output, faults = run(program, "import", "filled", "1", "--from", "text", lines=text, **limited(150_000))
    answer = told(output)
    checks.same("an import that a disk has no room for", (status, answer["ok"], answer["code"], faults), (1, False, 9, b"peritext: 9 failed\n"))
    there = run(program, "export", "filled", "1")[1]
    checks.holds(f"what was settled before stays: {len(there)}", 0 < len(there) < len(text) and text.startswith(there))


def cmark(text, *words):
    return subprocess.run(["cmark", *words], input=text, capture_output=True, check=True, timeout=60).stdout


def as_read(characters):
    """A document's characters as they are written in Markdown: 0 is shown as another character, and a link that could run a program is none."""
    return [(character.replace("\0", "\ufffd"), (strong, em, link if link is None or exports.is_tame(link) else None)) for character, (strong, em, link) in characters]


def all_exported(program, name, docs):
    """The spans of documents, and their Markdown."""
    lines = b"".join(line(op="spans", doc=doc) + line(op="export", doc=doc, to="markdown") for doc in docs)
    answers = [json.loads(answer) for answer in run(program, "edit", name, lines=lines)[1].splitlines()]
    return [(spans["spans"], page["text"]) for spans, page in zip(answers[::2], answers[1::2])]


def read_back(program, page):
    """The characters of a page that is put into a new file, with their marks."""
    new_file(program, "back")
    found = put(program, "back", 1, page)
    return marked(spans_of(program, "back", 1)) if isinstance(found, dict) else found


def check_exported(checks, program, chance):
    """What is exported comes back."""
    new_file(program, "from")
    has_cmark = shutil.which("cmark") is not None
    if not has_cmark:
        checks.skip("what cmark writes anew", "no cmark (apt-get install cmark)")
    exports.edits(checks, program, "from", exports.marked(1) + exports.links(100) + exports.hostile(200) + exports.drawn(400, chance))
    docs = [1, *range(100, 100 + len(exports.TAME + exports.WILD)), *range(200, 200 + 2 * len(exports.HOSTILE)), *range(400, 400 + exports.ROUNDS)]
    anew = 0
    for spans, page in all_exported(program, "from", docs):
        wanted = without_space(as_read(marked(spans)))
        checks.same(f"import of {page!r}", without_space(read_back(program, page)), wanted)
        if has_cmark:
            anew += check_anew(checks, program, page, wanted)
    checks.holds(f"cmark writes {anew} of {len(docs)} anew", not has_cmark or anew > len(docs) // 2)


def check_anew(checks, program, page, wanted):
    """The same of a page as cmark writes it anew, if that shows for cmark itself what the page shows."""
    again = cmark(page.encode(), "-t", "commonmark", "--unsafe")
    if cmark(again, "--unsafe") != cmark(page.encode(), "--unsafe"):
        return 0
    checks.same(f"import of {again!r}", without_space(read_back(program, again)), wanted)
    return 1


def is_other(page):
    """Whether a page of cmark shows what is read otherwise: a block of HTML keeps its text here; a tab in front of code is as many spaces; and what
    stands in an image's text keeps its marks; and an item of an empty link alone is a paragraph; and cmark keeps a tab after a break of the line."""
    block = re.search(r"^<!-- raw HTML omitted -->$", page, re.MULTILINE)
    code = any("\t" in code for code in re.findall(r"<pre>.*?</pre>", page, re.DOTALL))
    images = any(text != "k" for text in re.findall(r'alt="([^"]*)"', page))
    return block or code or images or '"></a>' in page or "<br />\n\t" in page


def check_drawn(checks, program, chance):
    """Markdown that was drawn is read as cmark reads it. The same pages at each run: version 0.30.2 leaves some `_` as they are (two pages of 8,782),
    since a `__` before them closed nothing, where CommonMark has them end what began further up."""
    if shutil.which("cmark") is None:
        checks.skip("Markdown as cmark reads it", "no cmark (apt-get install cmark)")
        return
    for _ in range(ROUNDS):
        page = "".join(chance.choice(TOKENS) for _ in range(chance.randint(1, 25)))
        wanted = cmark(page.encode()).decode()
        if is_other(wanted):
            continue
        wanted = [(character, plain(marks)) for character, marks in page_html.shown(wanted)]
        checks.same(f"Markdown {page!r}", [(character, plain(marks)) for character, marks in read_back(program, page)], wanted)


def time_of(program, text):
    """The time of an import that its first edit ends, for which the disk has no room: that of reading, and of making the edits."""
    new_file(program, "timed")
    started = time.monotonic()
    status, output, _ = run(program, "import", "timed", "1", "--from", "markdown", lines=text.encode(), **limited(20_000))
    took = time.monotonic() - started
    return took, status == 1 and told(output)["code"] == 9 or status == 0 and told(output)["ok"]


def check_time(checks, program):
    texts = {what: lambda size, part=part: part * (size // len(part)) for what, part in HOSTILE.items()}
    texts |= {what: lambda size, part=part: part * (size // 6) + "a" + "\n" * (size // 2) for what, part in DEEP.items()}
    for what, text in texts.items():
        short, _ = time_of(program, text(LONG // 2))
        long, is_read = time_of(program, text(LONG))
        checks.holds(f"{what} are read", is_read)
        checks.holds(f"the time of {what}: {short:.2f} s, {long:.2f} s", long < 3 * short + START)


def check(checks, program, _until):
    seed = random.randrange(1 << 30)
    print(f"imports: drawn with the seed {seed}")
    chance = random.Random(seed)
    check_words(checks, program)
    check_text(checks, program)
    check_marks_there(checks, program)
    check_dropped(checks, program)
    check_refused(checks, program)
    check_exported(checks, program, chance)
    check_drawn(checks, program, random.Random(SAME_PAGES))
    check_time(checks, program)
