"""Which words of a term name something that stands outside it. What a term binds itself is left out: the parameters of
a λ, of a type in brackets, of a let and of a do, the fields that a record is given, and the variables of a pattern."""
from text import CLOSING, OPENING, closing

LITERALS = set("0123456789")
RESERVED = {"in", "record", "→", "×", "=", "Type"}


class Reader:
    """Walks over the words of a term with the names that are bound where it stands."""

    def __init__(self, bound, is_constructor):
        self.scopes = [set(bound)]
        self.is_constructor = is_constructor
        self.named = set()

    def is_bound(self, name):
        return any(name in scope for scope in self.scopes)

    def name(self, word):
        """Takes a word of the term: the part before its first dot, or, behind an alias, all of it."""
        word = word.strip("`")
        if not word or word in RESERVED or word[0] in '".' or word[0] in LITERALS:
            return
        if not self.is_bound(word.split(".")[0]):
            self.named.add(word.rstrip("."))

    def binds_group(self, words, at):
        """Whether the bracket at this position declares names: `(x y : A)`."""
        position = at + 1
        while position < len(words) and words[position] not in "([{)]};,λ:" and words[position][0] not in '".':
            position += 1
        return position > at + 1 and position < len(words) and words[position] == ":"

    def group(self, words, at):
        """Reads `(x y : A)`: names of A, and x and y are bound behind it."""
        colon = words.index(":", at)
        end = closing(words, at)
        self.term(words[colon + 1:end])
        self.scopes[-1].update(words[at + 1:colon])
        return end + 1

    def parameters(self, words, at):
        """Reads what a λ binds, up to the dot behind it."""
        while at < len(words):
            word = words[at]
            if word in OPENING:
                at = self.group(words, at) if self.binds_group(words, at) else closing(words, at) + 1
                continue
            at += 1
            if word.startswith("."):
                if len(word) > 1:
                    self.name(word[1:])
                return at
            name, dot, behind = word.partition(".")
            self.scopes[-1].add(name)
            if dot:
                if behind:
                    self.name(behind)
                return at
        return at

    def is_field(self, words, at):
        """Whether a word is the name of a field that a record is given: `{ a = ..; b = .. }`."""
        return at > 0 and words[at - 1] in ("{", ";") and at + 1 < len(words) and words[at + 1] == "="

    def term(self, words):
        at = 0
        self.scopes.append(set())
        depth = len(self.scopes)
        while at < len(words):
            word = words[at]
            if word == "λ":
                at = self.parameters(words, at + 1)
                continue
            if word in ("(", "{") and self.binds_group(words, at):
                at = self.group(words, at)
                continue
            if word in OPENING:
                self.scopes.append(set())
            elif word in CLOSING:
                if len(self.scopes) > depth:
                    self.scopes.pop()
            elif word in (";", ","):
                self.scopes[-1].clear()
            elif word == "let":
                self.scopes[-1].add(words[at + 1])
                at += 1
            elif word == "do":
                self.name(">>=")
            elif words[at + 1:at + 2] == ["←"]:
                self.scopes[-1].add(word)
                at += 1
            elif not self.is_field(words, at):
                self.name(word)
            at += 1
        del self.scopes[depth - 1:]

    def pattern(self, words):
        """Reads a pattern: its constructors are named, its other words bound."""
        for at, word in enumerate(words):
            if word in "()[]{};," or self.is_field(words, at):
                continue
            if "." in word or self.is_constructor(word):
                self.name(word)
            else:
                self.scopes[-1].add(word)

    def clause(self, words):
        """Reads a defining clause: `f pattern.. = term`."""
        self.scopes.append(set())
        equals = outer_equals(words)
        self.pattern(words[:equals])
        self.term(words[equals + 1:])
        self.scopes.pop()


def outer_equals(words):
    """The position of the `=` of a clause."""
    depth = 0
    for at, word in enumerate(words):
        depth += (word in OPENING) - (word in CLOSING)
        if word == "=" and depth == 0:
            return at
    return len(words)
