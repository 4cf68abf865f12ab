"""How many lines a reader has to believe: contracts that other crates see, and the definitions that these reach.

    python3 tools/believe.py [CRATE ..]      from the project's root; all crates, or the contracts of these
    python3 tools/believe.py --list CRATE    the definitions that its contracts reach, by module

A contract counts where a function can be called from outside its crate: one that `lib.rt` hands on, a method of a type or a trait that it
hands on, or a law in a module that it makes public. What a model shows (`Value`) counts, how it is made of the fields doesn't. Names are
looked up by the imports of the file that uses them. Comments, imports and blank lines don't count.
"""

import collections
import glob
import os
import re
import sys

NAME = re.compile(r"[A-Za-z_][A-Za-z0-9_]*|◌[^\s◌]+◌")
DEFINITION = re.compile(r"(?:unfoldable |abbrev |pub |record |data )+(\S+)")
IMPORT = re.compile(r"^\s*(?:ghost )?use (Rattle\.[\w.]+?)\.\{(.*?)\};?\s*$", re.M)


def text_of(path):
    with open(path, encoding="utf-8") as file:
        return file.read()


def imports(text):
    """Where each imported name comes from: its module, and its name there."""
    found = {}
    for module, names in IMPORT.findall(text):
        for part in filter(None, re.split(r",\s*", names.strip())):
            there, _, here = part.partition(" as ")
            found[(here or there).strip()] = (module, there.strip())
    return found


class Definitions:
    """The definitions of all crates: how many lines each has, and which others it names."""

    def __init__(self):
        self.lines, self.names, self.imports = collections.Counter(), collections.defaultdict(set), {}
        for path in glob.glob("crates/*/specs/**/*.antt", recursive=True):
            crate, rest = path[:-5].split("/")[1], path[:-5].split("/")[3:]
            self.read(f"Rattle.{crate}.specs.{'.'.join(rest)}", text_of(path))

    def read(self, module, text):
        self.imports[module], key = imports(text), None
        for line in text.split("\n"):
            if not line.strip() or line.lstrip().startswith("--") or line.startswith("use "):
                continue
            head = DEFINITION.match(line)
            key = (module, head[1]) if head else key
            if key:
                self.lines[key] += 1
                self.names[key] |= set(NAME.findall(line))

    def find(self, known, name, module=None):
        """The definition of a name in a file with these imports, if it is one of a crate."""
        key = (module, name) if (module, name) in self.lines else known.get(name)
        return key if key in self.lines else None

    def reached(self, roots):
        seen, todo = set(), list(roots)
        while todo:
            key = todo.pop()
            if key not in seen:
                seen.add(key)
                todo += filter(None, (self.find(self.imports[key[0]], name, key[0]) for name in self.names[key]))
        return seen


def handed_on(crate):
    """What `lib.rt` hands on: names of items, and public modules."""
    text, names = text_of(f"crates/{crate}/src/lib.rt"), set()
    for path, group in re.findall(r"^pub use ([\w:]+?)(?:::\{([^}]*)\})?;", text, re.M):
        names |= {part.strip() for part in group.split(",")} if group else {path.split("::")[-1]}
    return names, set(re.findall(r"^pub mod (\w+);", text, re.M))


def subject(line):
    """The type of an `impl`, or the name of a trait, and whether its functions are public by themselves."""
    what, rest = re.match(r"(?:pub )?(impl|trait)\b(.*)", line).groups()
    if what == "trait":
        return re.match(r"\s*(\w+)", rest)[1], True
    named = re.match(r"\s*(?:(\w+)\s+for\s+)?&?\s*(\w+)", re.sub(r"<[^<>]*(?:<[^<>]*>)*[^<>]*>", "", rest))
    return named[2], named[1] is not None


def public_lines(crate):
    """The lines of contracts that other crates see, each with the imports of its file."""
    names, modules = handed_on(crate)
    for path in glob.glob(f"crates/{crate}/src/**/*.rt", recursive=True):
        module = os.path.basename(path)[:-3]
        if "test" in module:
            continue
        text = text_of(path)
        known, depth, within, by_itself, public, inside = imports(text), 0, None, False, False, False
        for line in (re.sub(r"//.*", "", line) for line in text.split("\n")):
            if depth == 0:
                within = None
                if re.match(r"(?:pub )?(impl|trait)\b", line):
                    within, by_itself = subject(line)
            head = re.match(r"\s*(pub(?:\([a-z]+\))? )?(?:const )?fn (\w+)", line)
            if head:
                is_public = head[1] == "pub " or within is not None and by_itself
                public = is_public and ((within or head[2]) in names or module in modules)
            if re.match(r"\s*(ensures|requires)\b", line):
                inside = public
            elif re.match(r"\s*ghost (?!use|view|invariant)\w+", line):
                inside = within in names
            elif re.match(r"\s*ghost |\s*\{\s*$|^\s*$", line):
                inside = False
            if inside:
                yield line, known
            depth += line.count("{") - line.count("}")


def main():
    words = [word for word in sys.argv[1:] if word != "--list"]
    definitions, clauses, roots = Definitions(), collections.Counter(), set()
    for crate in words or sorted(path.split("/")[1] for path in glob.glob("crates/*/src/lib.rt")):
        for line, known in public_lines(crate):
            clauses[crate] += 1
            roots |= set(filter(None, (definitions.find(known, name) for name in NAME.findall(line))))
    reached, lines = definitions.reached(roots), collections.Counter()
    for module, name in reached:
        lines[module.split(".")[1]] += definitions.lines[module, name]
    if "--list" in sys.argv:
        for module in sorted({module for module, _ in reached}):
            print(module, *sorted(name for there, name in reached if there == module))
    for crate in sorted(set(clauses) | set(lines)):
        print(f"{crate:18} {clauses[crate]:5} lines of contracts, {lines[crate]:5} of definitions")
    print(f"{'all':18} {sum(clauses.values()):5} lines of contracts, {sum(lines.values()):5} of definitions")


if __name__ == "__main__":
    main()
