"""Reads a file of definitions (.antt): what it defines, what it imports, and what each definition names."""
import re

from terms import Reader
from text import Definition, counted, first_sentence, joined, without_comments, words_of

MARKS = {"pub", "abbrev", "unfoldable", "opaque", "abstract"}
HEADING = re.compile(r"--\s*-{3,}\s*(.*)")
WHERE = re.compile(r"(?<!\S)where(?!\S)")
FIELD = re.compile(r"^\s+(?:pub )?((?:[^\s:(){}]+ )+):(?=\s|$)(.*)")


class Chunk:
    """The lines of one item of a file, from one that is not indented to the next, with the comment above."""

    def __init__(self, line, comment, heading):
        self.lines, self.comment, self.heading = [line], comment, heading

    @property
    def text(self):
        return "\n".join(self.lines)


def chunks(text):
    """The items of a file; the comment above an item is the run of comments that touches it."""
    found, comment, heading = [], [], ""
    for line in opened(text.split("\n")):
        if line.startswith("--"):
            head = HEADING.match(line)
            if head:
                heading, comment = head.group(1).strip("- "), []
            else:
                comment.append(line[2:])
        elif not line.strip():
            comment = []
        elif line[0] in " )}]" and found:
            found[-1].lines.append(line)
        else:
            found.append(Chunk(line, comment, heading))
            comment = []
    return found


def opened(lines):
    """The lines with what stands in a module with parameters at the margin, as it is for who cites it."""
    inside = 0
    for line in lines:
        if re.match(r"module\b.*\bwhere$", line):
            inside = 2
            continue
        if line.strip() and not line.startswith(" "):
            inside = 0
        yield line[inside:]


def head_of(text):
    """The comment at the head of a file."""
    lines = []
    for line in text.split("\n"):
        if not line.startswith("--") or HEADING.match(line):
            break
        lines.append(line[2:])
    return lines


class SpecFile:
    """A file of definitions: its names, its imports, and what stands in it."""

    def __init__(self, place, text):
        self.place = place
        self.head = head_of(text)
        self.definitions = {}
        self.constructors = {}
        self.imports = {}
        self.modules = {}
        self.current = None
        self.pending = []
        for chunk in chunks(text):
            self.take(chunk)

    # ---- reading items

    def take(self, chunk):
        plain = without_comments(chunk.text)
        words = plain.split()
        marks = 0
        while marks < len(words) and words[marks] in MARKS:
            marks += 1
        kind = words[marks] if marks < len(words) else ""
        if kind == "use":
            self.take_import(plain)
        elif kind == "mod" or kind.startswith("infix"):
            pass
        elif kind in ("record", "data"):
            self.declare(chunk, words[marks + 1], kind, plain)
        elif kind == "unfolding":
            self.belongs(self.current, chunk)
        elif len(words) > marks + 1 and (words[marks + 1].startswith("{") and marks or words[marks + 1] == ":"):
            self.declare(chunk, kind, "signature", plain)
        else:
            self.take_clause(chunk, plain)

    def take_import(self, plain):
        for module, names in re.findall(r"use\s+([^\s{]+?)\.?\s*\{([^}]*)\}", plain):
            for item in names.replace("\n", " ").split(","):
                if item.strip():
                    name, _, other = item.strip().partition(" as ")
                    self.imports[(other or name).strip()] = (module, name.strip())
        whole = re.search(r"use\s+([^\s{]+[^.\s{])(?:\s+as\s+(\S+))?\s*$", plain)
        if whole:
            self.modules[whole.group(2) or whole.group(1).split(".")[-1]] = whole.group(1)

    def declare(self, chunk, name, kind, plain):
        name = name.rstrip(":")
        definition = Definition(self.place, name, first_sentence(chunk.comment), chunk.heading, joined(chunk.comment))
        self.definitions[name] = definition
        self.belongs(name, chunk)
        self.current = name
        if kind == "data":
            for names, _ in split_declaration(plain)[1]:
                self.constructors.update({it: name for it in names})
        self.pending.append((name, kind, plain))

    def take_clause(self, chunk, plain):
        words = words_of(plain)
        name = words[0] if words[0] in self.definitions else self.current
        self.belongs(name, chunk)
        self.pending.append((name, "clause", plain))

    def belongs(self, name, chunk):
        if name:
            self.definitions[name].lines += counted(chunk.text)

    # ---- what is named

    def read_terms(self, is_constructor):
        """Finds what each definition names; is_constructor answers for a word of this file."""
        for name, kind, plain in self.pending:
            reader = Reader({name}, is_constructor)
            words = words_of(plain)
            if kind == "signature":
                reader.term(words[words.index(":") + 1:])
            elif kind == "clause":
                read_clause(reader, plain)
            else:
                read_declaration(reader, plain)
            self.definitions[name].words |= reader.named
        self.pending = []


def indent(line):
    return len(line) - len(line.lstrip())


def read_clause(reader, plain):
    """A clause, with the definitions of its own that stand behind a `where`."""
    clause, _, behind = plain.partition("\n  where\n")
    lines = [line.strip() for line in behind.split("\n") if line.strip()]
    reader.scopes[-1].update(line.split()[0] for line in lines if line.split()[1:2] == [":"])
    reader.clause(words_of(clause))
    for line in lines:
        words = words_of(line)
        if words[1:2] == [":"]:
            reader.term(words[2:])
        else:
            reader.clause(words)


def read_declaration(reader, plain):
    """A record or data: its parameters, its fields or constructors. A field is bound in those behind it."""
    head, body = split_declaration(plain)
    words = words_of(head)
    at = 0
    while at < len(words):
        if words[at] in ("(", "{") and reader.binds_group(words, at):
            at = reader.group(words, at)
        else:
            if words[at] not in ("pub", "record", "data", ":"):
                reader.name(words[at])
            at += 1
    for names, term in body:
        reader.term(words_of(term))
        if "record" in words[:2]:
            reader.scopes[-1].update(names)


def split_declaration(plain):
    """The head of a declaration up to its `where`, and its fields or constructors: their names and types. What goes on
    from the line before is indented more than those."""
    head, _, rest = WHERE.sub("\0", plain, count=1).partition("\0")
    lines = [line for line in rest.split("\n") if line.strip()]
    depth, fields = min((indent(line) for line in lines), default=0), []
    for line in lines:
        match = FIELD.match(line)
        if match and indent(line) == depth:
            fields.append((match.group(1).split(), match.group(2)))
        elif fields:
            fields[-1] = (fields[-1][0], f"{fields[-1][1]} {line.strip()}")
    return head, fields
