"""What both kinds of source have in common: words, brackets and comments."""
import re
from dataclasses import dataclass, field

WORD = re.compile(r'"(?:\\.|[^"\\])*"|[()\[\]{};,]|λ|[^\s()\[\]{};,"λ]+')
COMMENT = re.compile(r'("(?:\\.|[^"\\])*")|(--|//).*')
OPENING, CLOSING = "([{", ")]}"


@dataclass
class Definition:
    """One definition, and what it names: words that its file resolves. A type with a model is seen as another type."""
    place: "Place"
    name: str
    comment: str = ""
    heading: str = ""
    whole: str = ""
    lines: int = 0
    seen_as: str = ""
    words: set = field(default_factory=set)


@dataclass(frozen=True)
class Place:
    """A file of a crate: its path below crates/."""
    path: str

    @property
    def crate(self):
        return self.path.split("/", 1)[0]

    @property
    def inner(self):
        return self.path.split("/", 1)[1]


def without_comments(text):
    """The text with its comments out; a text in quotes is left as it is."""
    return COMMENT.sub(lambda match: match.group(1) or "", text)


def words_of(text):
    return WORD.findall(text)


def counted(text):
    """How many lines have more than a comment."""
    return sum(1 for line in without_comments(text).split("\n") if line.strip())


def closing(words, at):
    """The position of the bracket that closes the one at this position."""
    depth = 0
    for position in range(at, len(words)):
        depth += (words[position] in OPENING) - (words[position] in CLOSING)
        if depth == 0:
            return position
    return len(words) - 1


def joined(lines):
    return " ".join(line.strip() for line in lines).strip()


def first_sentence(lines):
    """The first sentence of a comment."""
    text = joined(lines)
    end = re.search(r"(?<!\be\.g)(?<!\bi\.e)[.](?=\s+[A-Z`])", text)
    return (text[:end.start()] if end else text.rstrip(".")).strip()
