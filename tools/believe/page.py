"""Writes the page: by crate from the top down, by file, a line a definition."""
import re

from text import first_sentence, joined

SECTION = r"(?<![\d.])[2-7](?:\.\d+)+"
SECTIONS = re.compile(rf"{SECTION}(?: to {SECTION})?")
CHAPTERS = re.compile(r"JVM Specification(?:, SE 7)?,? (?:chapters? )?([2-7](?:(?:, | and )[2-7])*)(?![.\d])")
CITATION = re.compile(rf"\s*\((?:JVM Specification(?:, SE 7)?,? )?(?:chapters? )?[2-7](?:\.\d+)*"
                      rf"(?:(?:, | and | to )[2-7](?:\.\d+)*)*\)")
WIDTH = 118


def sections(text):
    """The sections of the JVM Specification that a comment names, and its chapters."""
    return [it for named in CHAPTERS.findall(text) for it in re.findall(r"\d", named)] + SECTIONS.findall(text)


def cited(*texts):
    """The sections that texts name, as they are shown behind a line."""
    found = dict.fromkeys(it for text in texts for it in sections(text))
    return f" §{', '.join(found)}" if found else ""


def shown(text):
    """A comment as it is shown: what is nothing but a list of sections stands at the end of the line."""
    parts = CITATION.sub("", text).strip().split("`")
    return "`".join(part if at % 2 else part.replace("<", "&lt;") for at, part in enumerate(parts))


# ---- lists of definitions

def line_of(definition):
    seen = f" (seen as `{definition.seen_as}`)" if definition.seen_as else ""
    return f"- `{definition.name}`{seen}: {shown(definition.comment)}{cited(definition.whole, definition.heading)}"


def wrapped(names, before=""):
    """A list item of bare names, in as few lines as they fit in."""
    if not names:
        return []
    lines = [f"- {before}`{names[0]}`"]
    for name in names[1:]:
        lines[-1] += ","
        if len(lines[-1]) + len(name) + 4 > WIDTH:
            lines.append(f"  `{name}`")
        else:
            lines[-1] += f" `{name}`"
    return lines


def list_of(definitions):
    """A line a definition; neighbours without a comment stand together by their names."""
    lines, bare = [], []
    for definition in definitions:
        if definition.comment or definition.seen_as:
            lines += wrapped(bare) + [line_of(definition)]
            bare = []
        else:
            bare.append(definition.name)
    return lines + wrapped(bare)


def names_by_file(crates, reached, cites):
    """The names of definitions, an item a file."""
    files, lines = by_file(reached), []
    highest_first = sorted(files, key=lambda path: -crates.names.index(path.split("/")[0]))
    for path in in_reading_order(highest_first, cites):
        lines += wrapped([it.name for it in in_file_order(crates, path, files[path])], f"**`{path}`** ")
    return lines


# ---- order

def in_reading_order(paths, cites):
    """Files so that each stands before those that it cites; first those that were found first."""
    left, ordered = list(paths), []
    while left:
        uncited = [it for it in left if not any(it in cites.get(other, ()) for other in left if other != it)]
        first = (uncited or left)[0]
        left.remove(first)
        ordered.append(first)
    return ordered


def by_file(reached):
    """The reached definitions by their files, the files in the order in which they were found."""
    files = {}
    for (path, name), definition in reached.items():
        files.setdefault(path, {})[name] = definition
    return files


def in_file_order(crates, path, found):
    return [it for name, it in crates.file(path).definitions.items() if name in found]


# ---- parts of the page

def crate_part(crates, crate, files, cites):
    """The part of a crate: its files of definitions, and the types of its code."""
    head = crates.file(f"{crate}/src/lib.rt") or crates.file(f"{crate}/src/main.rt")
    lines = [f"### {crate}", ""]
    lines += [f"{about(head.head)}.", ""] if head and head.head else []
    own = [path for path in files if path.startswith(f"{crate}/")]
    for path in in_reading_order([it for it in own if it.endswith(".antt")], cites):
        lines += [f"**`{path.split('/', 1)[1]}`** {about(crates.file(path).head)}"]
        lines += list_of(in_file_order(crates, path, files[path])) + [""]
    types = [it for path in sorted(own) if path.endswith(".rt") for it in in_file_order(crates, path, files[path])]
    return lines + types_of(types)


def types_of(types):
    """The types of a crate's code, each with its file."""
    if not types:
        return []
    lines = ["**Types of the code**"]
    for it in types:
        seen = f", seen as `{it.seen_as}`" if it.seen_as else ""
        comment = f": {shown(it.comment)}" if it.comment else ""
        lines.append(f"- `{it.name}` (`{it.place.inner}`{seen}){comment}{cited(it.whole)}")
    return lines + [""]


def about(head):
    """What the comment at the head of a file says first, and the sections that it names."""
    return shown(first_sentence(head)) + cited(joined(head))


def contract_part(crates, call):
    """The clauses of a call, as they stand."""
    return ["```", *crates.file(call.place.path).contracts[call.name].shown, "```", ""]


def counts_part(crates, reached, everything):
    """The counts by crate, and of what is reached in all."""
    counted = {crate: [0] * 5 for crate in crates.names}
    for definition in reached.values():
        row, first = counted[definition.place.crate], 3 if definition.place.path.endswith(".rt") else 0
        row[first] += 1
        row[2 if first == 0 else 4] += definition.lines
    for definition in everything:
        counted[definition.place.crate][1] += 1
    rows = [(crate, *counted[crate]) for crate in reversed(crates.names) if counted[crate][0] + counted[crate][3]]
    sums = (f"{len(rows)} crates", *(sum(row[at] for row in rows) for at in range(1, 6)))
    head = ["| Crate | Definitions | Of all | Lines | Types of the code | Lines |", "|---|--:|--:|--:|--:|--:|"]
    return head + [f"| {' | '.join(str(it) for it in row)} |" for row in [*rows, sums]] + [""]
