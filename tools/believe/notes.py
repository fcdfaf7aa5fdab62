"""Reads the list of what is there for a proof alone, and puts it on the page."""
from dataclasses import dataclass, field
from textwrap import wrap

from page import WIDTH
from walking import walk


@dataclass
class Note:
    """What is said of some definitions, which are FILE.NAME; in part where they are there for more."""
    names: list
    in_part: bool
    text: list = field(default_factory=list)


class Unknown(Exception):
    """A note names what is not reached, or what several files have."""


def read_notes(path):
    """The groups of the list: each with its heading and its notes."""
    groups = []
    with open(path) as file:
        for line in (it.strip() for it in file):
            if line.startswith("## "):
                groups.append((line[3:], []))
            elif line.startswith("@"):
                names = line[1:].split()
                in_part = names[0] == "part"
                groups[-1][1].append(Note(names[in_part:], in_part))
            elif line and not line.startswith("#"):
                groups[-1][1][-1].text.append(line)
    return groups


def key_of(reached, name):
    """The definition that FILE.NAME means among those that are reached."""
    file, _, own = name.partition(".")
    found = [key for key in reached.definitions if key[1] == own and key[0].endswith(f"/{file}.antt")]
    if len(found) != 1:
        raise Unknown(f"for_proofs.txt names {name}, which {len(found)} definitions that are reached are")
    return found[0]


def cost(crates, headline, reached, keys):
    """How many definitions are cited for these alone, themselves among them, and in how many lines."""
    others = walk(crates, [headline], without=set(keys)).definitions
    alone = [it for key, it in reached.definitions.items() if key not in others]
    return f"{plural(len(alone), 'definition')} in {plural(sum(it.lines for it in alone), 'line')}"


def plural(count, word):
    return f"{count} {word}{'' if count == 1 else 's'}"


def shown_note(crates, headline, reached, note):
    keys = [key_of(reached, name) for name in note.names]
    names = ", ".join(f"`{key[1]}`" for key in keys)
    count = "" if note.in_part else f" ({cost(crates, headline, reached, keys)})"
    text = f"{names}{count}: {' '.join(note.text)}"
    return wrap(text, WIDTH, initial_indent="- ", subsequent_indent="  ", break_on_hyphens=False)


def notes_part(crates, headline, reached, path):
    """The part of the page that says what the statement cites for a proof alone."""
    about = "As long as the statement cites it, it is believed like the rest. In brackets: what is cited for it alone."
    lines = ["## What is there for a proof alone", "", about, ""]
    for heading, notes in read_notes(path):
        lines += [f"**{heading}**"]
        for note in notes:
            lines += shown_note(crates, headline, reached, note)
        lines += [""]
    return lines
