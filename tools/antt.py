"""Definitions of .antt files: where each stands, and which others it mentions. Enough of the language for this repository's specs. Scopes
are not followed: a variable or a field that has a definition's name counts as a mention of it."""
import pathlib
import re

KEYWORDS = ("pub", "abbrev", "unfoldable", "record", "data", "ruleset")
NAME = re.compile(r"[^\s(){}\[\],;]+")
USE = re.compile(r"(?:ghost )?use (?P<module>\S+?)(?:\.\{(?P<names>.*)\}|(?: as (?P<alias>\S+))?);?$")


class Definition:
    """A record, a data type, a function or a law, with the comment above it."""

    def __init__(self, file, name, kind, comment):
        self.file, self.name, self.kind, self.comment, self.numbers = file, name, kind, comment, []

    def text(self):
        return "\n".join(re.sub(r"(^|\s)-- .*", "", line) for line in self.lines())

    def lines(self):
        return [self.file.lines[i] for i in self.comment + self.numbers]

    def constructors(self):
        """The constructors of a data type, by which others may mention it."""
        if self.kind != "data":
            return []
        heads = re.findall(r"(?m)^ +(?:pub )?(\S+(?: \S+)*) :", self.text())
        return [name for head in heads for name in head.split() if not name.startswith("(")]


class File:
    """A file of definitions: its head comment, what it imports, and its definitions in order."""

    def __init__(self, path):
        self.path = pathlib.Path(path)
        self.crate = self.path.parts[1]
        self.lines = self.path.read_text(encoding="utf-8").splitlines()
        self.imports, self.aliases, self.definitions, self.head = {}, {}, {}, []
        self.parse()

    def parse(self):
        pending, current, inside = [], None, ""
        for i, line in enumerate(self.lines):
            body = line.removeprefix(inside)
            if body.startswith("use "):
                self.take_import(body)
                self.head, pending = self.head or pending, []
            elif body.startswith("--"):
                pending.append(i)
            elif re.match(r"(pub )?module ", line):
                inside, pending, current = "  ", [], None
            elif not body:
                self.head, pending = self.head or (pending if not self.definitions else []), []
            elif body.startswith("infix"):
                pending = []
            elif body.startswith("unfolding ") or body[0] in " (){}":
                if current:  # else a module's parameters go on
                    current.numbers += pending + [i]
                pending = []
            else:
                if inside and not line.startswith(inside):
                    inside, body = "", line
                current = self.begin(body, i, pending)
                pending = []

    def take_import(self, line):
        found = USE.match(line)
        if found["names"] is None:
            self.aliases[found["alias"] or found["module"].split(".")[-1]] = found["module"]
            return
        for name in found["names"].split(", "):
            there, _, here = name.partition(" as ")
            self.imports[here or there] = (found["module"], there)

    def begin(self, body, i, comment):
        """The definition that line i begins or goes on with."""
        words, kind = body.split(), None
        while words[0] in KEYWORDS:
            kind = words.pop(0) if words[0] != "pub" else words.pop(0) and kind
        name = words[0]
        definition = self.definitions.get(name)
        if definition is None:
            definition = self.definitions[name] = Definition(self, name, kind, comment)
            comment = []
        definition.numbers += comment + [i]
        return definition

    def sentence(self):
        """The first sentence of its head comment, with what it quotes."""
        text = " ".join(self.lines[i].removeprefix("--").strip() for i in self.head)
        ends = (m.start() for m in re.finditer(r"\. |\.$|$", text) if text.count('"', 0, m.start()) % 2 == 0)
        return text[: next(ends, len(text))]


class Tree:
    """All files of definitions, and what a name in one of them stands for."""

    def __init__(self):
        paths = sorted(pathlib.Path("crates").glob("*/specs/**/*.antt"))
        self.files = {str(path): File(path) for path in paths if path.name not in ("Lib.antt", "laws.antt", "computed.antt")}

    def at(self, module, name):
        """The definition of a name in a module; ("declared", crate, path) where the code declares it; None where the library does."""
        found = re.match(r"Rattle\.(\w+)\.specs\.(.*)$", module)
        if not found or not pathlib.Path("crates", found[1]).exists():
            return None
        crate, path = found[1], found[2]
        if path.startswith("declared."):
            return ("declared", crate, path.removeprefix("declared.").removesuffix(".TheVariants"))
        file = self.files[f"crates/{crate}/specs/{path.replace('.', '/')}.antt"]
        return file.definitions.get(name) or next(d for d in file.definitions.values() if name in d.constructors())

    def mentions(self, definition):
        """What a definition mentions beside itself."""
        file, found = definition.file, []
        for word in NAME.findall(definition.text()):
            head, _, rest = word.partition(".")
            if head in file.aliases and rest:
                found.append(self.at(file.aliases[head], rest.split(".")[0]))
            elif head in file.definitions:
                found.append(file.definitions[head])
            elif head in file.imports:
                found.append(self.at(*file.imports[head]))
        return [mention for mention in found if mention is not None and mention is not definition]
