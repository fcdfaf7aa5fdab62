"""Reads a file of code (.rt): its types, traits, constants and functions, its imports, and what clauses name."""
import re
from dataclasses import dataclass

from terms import Reader
from text import Definition, counted, first_sentence, joined, without_comments, words_of

ITEM = re.compile(r"^(?:pub(?:\([a-z]+\))? )?(struct|enum|trait|const|type|fn) (\w+)", re.M)
METHOD = re.compile(r"^    (?:pub(?:\([a-z]+\))? )?fn (\w+)", re.M)
MODEL = re.compile(r"^impl\b[^\n{]*\bModel for (\w+)", re.M)
GHOST_USE = re.compile(r"ghost use\s+([^\s{;]+?)\.?(?:\{([^}]*)\})?(?:\s+as\s+(\S+))?\s*;")
CLAUSE = re.compile(r"\s*(requires|ensures)\b\s*(\w*)\s*\{")
GHOST = re.compile(r"ghost (\w+)\s*[:=]\s*\{")
TYPE = re.compile(r"\b[A-Z]\w*\b")


@dataclass
class Contract:
    """The contract of a function: what stands before its body, its clauses, and where its body begins."""
    head: str
    clauses: list
    body: int

    @property
    def shown(self):
        """The clauses as they stand, without their comments."""
        lines = [line.rstrip() for line in self.head.split("\n") if line.strip()]
        return lines[next((at for at, it in enumerate(lines) if CLAUSE.match(it)), len(lines)):]


def balanced(text, at):
    """The position behind the bracket that closes the `{` or `(` at this one."""
    depth = 0
    for position in range(at, len(text)):
        depth += (text[position] in "{(") - (text[position] in "})")
        if depth == 0:
            return position + 1
    return len(text)


def end_of_item(plain, start):
    """Where an item ends: behind its block, or behind its `;`."""
    semicolon, brace = plain.find(";", start), plain.find("{", start)
    if brace < 0 or 0 <= semicolon < brace:
        return semicolon + 1
    return balanced(plain, brace)


def end_of_contract(plain, start):
    """Where the body of a function, or its `;`, begins; its clauses are the texts in between."""
    at, clauses = start, []
    while at < len(plain):
        clause = CLAUSE.match(plain, at)
        if clause:
            end = balanced(plain, clause.end() - 1)
            clauses.append(plain[clause.end():end - 1])
            at = end
        elif plain[at] in "{;":
            return at, clauses
        else:
            at = balanced(plain, at) if plain[at] == "(" else at + 1
    return at, clauses


def blanked(text):
    """The text with comments and attributes out, each line where it was."""
    return re.sub(r"#!?\[[^\]\n]*\]", "", re.sub(r"//.*", "", text))


class SourceFile:
    """A file of code. Its definitions are its types, traits and constants."""

    def __init__(self, place, text):
        self.place = place
        self.text = text
        self.plain = blanked(text)
        self.head = [line[3:] for line in text.split("\n") if line.startswith("//!")]
        self.imports = ghost_imports(self.plain)[0]
        self.modules = ghost_imports(self.plain)[1]
        self.uses = rust_imports(self.plain)
        self.definitions = {}
        self.contracts = {}
        for match in ITEM.finditer(self.plain):
            self.take(match)

    def take(self, match):
        kind, name = match.groups()
        if kind == "fn":
            body, clauses = end_of_contract(self.plain, match.end())
            self.contracts[name] = Contract(self.plain[match.end():body], clauses, body)
            return
        end = end_of_item(self.plain, match.start())
        block = self.plain[match.start():end]
        number = self.plain[:match.start()].count("\n") + 1
        doc = self.doc_above(number)
        definition = Definition(self.place, name, first_sentence(doc), whole=joined(doc))
        definition.lines = counted(block)
        definition.words = self.words_of_item(kind, name, block, definition)
        self.definitions[name] = definition

    def doc_above(self, number):
        """The doc comment above a line."""
        lines = self.text.split("\n")[:number - 1]
        found = []
        while lines and re.match(r"(///|#\[|//)", lines[-1]):
            line = lines.pop()
            if line.startswith("///"):
                found.insert(0, line[3:])
        return found

    # ---- what is named

    def words_of_item(self, kind, name, block, definition):
        if kind == "trait":
            return trait_words(block)
        if kind in ("const", "type"):
            return set(TYPE.findall(block.partition(":")[2] or block.partition("=")[2]))
        model = next((it for it in MODEL.finditer(self.plain) if it.group(1) == name), None)
        if model is None:
            return data_words(kind, block)
        return self.model_words(model, block, definition)

    def model_words(self, model, block, definition):
        """A type with a model is seen as its Value; where no field is private its view counts too."""
        text = self.plain[model.start():end_of_item(self.plain, model.start())]
        imports, modules = ghost_imports(text)
        self.imports.update(imports)
        self.modules.update(modules)
        members = dict(ghost_terms(text))
        definition.seen_as = " ".join(members.get("Value", "").split())
        shown = ["Value"] + ["view"] * has_no_private_field(block)
        definition.lines = counted(block) + sum(counted(members[it]) for it in shown if it in members)
        found = generic_words(block)
        for member in shown:
            found |= term_words(members.get(member, ""))
        return found


def has_no_private_field(block):
    fields = re.findall(r"^    (pub )?\w+: ", block, re.M)
    return bool(fields) and all(fields)


def generic_words(block):
    """The traits that bound the parameters of a type."""
    return set(TYPE.findall(block[:block.find("{")].partition("<")[2]))


def data_words(kind, block):
    """The types of the fields, without the names of variants; and the terms of ghost fields."""
    found = set()
    for _, term in ghost_terms(block):
        found |= term_words(term)
    body = re.sub(r"ghost \w+\s*:\s*\{[^\n]*\},?", "", block)
    head, _, rest = body.partition("{")
    fields = in_brackets(rest) if kind == "enum" else rest or head
    return found | set(TYPE.findall(fields)) | generic_words(block)


def in_brackets(text):
    """What stands in brackets in a text: of an enum's variants the types that they hold."""
    depth, found = 0, []
    for sign in text:
        depth += (sign in "({") - (sign in ")}")
        found.append(sign if depth > 0 else " ")
    return "".join(found)


def trait_words(block):
    """The types of the ghost members, and what the clauses of the methods name."""
    found = set()
    for _, term in ghost_terms(block):
        found |= term_words(term)
    for method in METHOD.finditer(block):
        body, clauses = end_of_contract(block, method.end())
        found |= contract_words(block[method.end():body], clauses)
    return found


def contract_words(head, clauses):
    """What the contract of a function names: its clauses, and the types of its values."""
    found = set(TYPE.findall(re.split(r"\b(?:requires|ensures)\b", head)[0]))
    for clause in clauses:
        found |= term_words(clause)
    return found


def term_words(term):
    reader = Reader({"Self", "self", "result"}, lambda word: False)
    reader.term(words_of(without_comments(term)))
    return reader.named


def ghost_terms(text):
    """The ghost members in a text: their names and terms."""
    for match in GHOST.finditer(text):
        yield match.group(1), text[match.end():balanced(text, match.end() - 1) - 1]


def ghost_imports(text):
    """What the lines `ghost use` bring: names of modules' items, and names of modules."""
    imports, modules = {}, {}
    for module, names, alias in GHOST_USE.findall(text):
        if not names:
            modules[alias or module.split(".")[-1]] = module
        for item in (names or "").replace("\n", " ").split(","):
            if item.strip():
                name, _, other = item.strip().partition(" as ")
                imports[(other or name).strip()] = (module, name.strip())
    return imports, modules


def rust_imports(text):
    """What the lines `use` and `pub use` bring: each name with its path."""
    found = {}
    for path in re.findall(r"^\s*(?:pub(?:\([a-z]+\))? )?use ([^;]+);", text, re.M):
        for name, whole in spread(re.sub(r"\s+", " ", path).strip()):
            found[name] = whole
    return found


def spread(path):
    """A path with braces as single paths."""
    head, brace, rest = path.partition("{")
    if not brace:
        whole, _, alias = path.partition(" as ")
        yield (alias or whole.split("::")[-1]).strip(), whole.strip()
        return
    depth, item = 0, ""
    for sign in rest.rstrip()[:-1] + ",":
        depth += (sign == "{") - (sign == "}")
        if sign == "," and depth == 0:
            if item.strip():
                yield from spread(head + item.strip())
            item = ""
        else:
            item += sign
