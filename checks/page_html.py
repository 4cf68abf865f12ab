"""What HTML that `cmark` wrote shows: the characters of its paragraphs, each with its marks."""

import html.parser

INLINE = ("p", "h1", "h2", "h3", "h4", "h5", "h6", "li")
PLAIN = (False, False, None)
# Stands for a line feed of the page, which is a space, or at the end of an item nothing.
SOFT = "\uffff"


class Reader(html.parser.HTMLParser):
    """The paragraphs of a page, each a list of characters with their marks: strong, emphasis, and where a link leads."""

    def __init__(self):
        super().__init__()
        self.paragraphs = []
        self.current = None
        self.items = 0
        self.is_item = False
        self.is_code = False
        self.after_break = False
        self.strong = self.em = 0
        self.links = []

    def end(self, is_before_block=False):
        """Ends a paragraph. Of an item that begins with a block, nothing is one; and a line feed between its text and a block is none."""
        if self.current is None:
            return
        while is_before_block and self.is_item and self.current and self.current[-1][0] == SOFT:
            self.current.pop()
        if self.current or not self.is_item:
            self.paragraphs.append([(" " if character == SOFT else character, marks) for character, marks in self.current])
        self.current = None

    def put(self, text):
        link = self.links[-1] if self.links else None
        self.current += [(character, (self.strong > 0, self.em > 0, link)) for character in text]

    def handle_starttag(self, tag, attrs):
        attrs = dict(attrs)
        if tag in INLINE:
            self.end(True)
            self.items += tag == "li"
            self.current, self.is_item = [], tag == "li"
        elif tag in ("ul", "ol", "blockquote", "hr", "pre"):
            self.end(True)
            self.is_code = tag == "pre"
            self.current, self.is_item = [] if self.items else None, True
        elif tag == "br":
            self.put("\n")
            self.after_break = True
        elif tag == "strong":
            self.strong += 1
        elif tag == "em":
            self.em += 1
        elif tag == "a":
            self.links.append(attrs["href"] or None)
        elif tag == "img":
            self.put(attrs["alt"])

    def handle_endtag(self, tag):
        if tag in INLINE or tag in ("ul", "ol", "blockquote", "pre"):
            self.end()
            self.items -= tag == "li"
            self.is_code = False
            # The text of an item may go on after a block.
            self.current, self.is_item = [] if self.items else None, True
        elif tag == "strong":
            self.strong -= 1
        elif tag == "em":
            self.em -= 1
        elif tag == "a":
            self.links.pop()

    def handle_data(self, data):
        if self.is_code:
            self.paragraphs += [[(character, PLAIN) for character in line] for line in data.split("\n")[:-1]]
        elif self.current is not None:
            if self.after_break and data.startswith("\n"):
                data = data[1:].lstrip(" ")
            if self.is_item and not self.current:
                data = data.lstrip("\n")
            self.after_break = False
            self.put(data.replace("\n", SOFT))


def shown(page):
    """The characters of a page with their marks: a line feed stands between two paragraphs."""
    reader = Reader()
    reader.feed(page)
    reader.close()
    reader.end()
    found = []
    for k, paragraph in enumerate(reader.paragraphs):
        found += ([("\n", PLAIN)] if k else []) + paragraph
    return found
