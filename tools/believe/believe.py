#!/usr/bin/env python3
"""believe.py: writes docs/BELIEVE.md, which lists the definitions that the contracts of the programs' calls reach: who
trusts them reads those and no others. --check writes nothing, and tells the first line in which the page differs;
status 1 if one does. --why NAME writes nothing, and tells how the headline comes to the definitions of this name."""
import os
import re
import sys

sys.dont_write_bytecode = True

from notes import Unknown, notes_part
from page import by_file, contract_part, counts_part, crate_part, names_by_file, wrapped
from walking import Crates, Lost, calls, chain, programs, walk

FOLDER = os.path.dirname(os.path.abspath(__file__))
TOP = os.path.dirname(os.path.dirname(FOLDER))
PAGE = "docs/BELIEVE.md"
FOR_PROOFS = "for_proofs.txt"
# What the program jfluid calls: the top call `jfluid`, where nothing of what was run is kept.
HEADLINE = "exit_status"

HEAD = """# What must be believed

Who trusts what jfluid promises has to read the definitions that its contract reaches, and no others: this page lists
them. `tools/believe/believe.py` makes it, and nobody writes in it: it goes from the clauses of each call that a program
makes to the definitions that they name, over `specs/` and the types of the code, until nothing is new. What proofs
alone name is not here. A type with private fields is seen as its `Value`, and is believed as that.
A § gives sections of the JVM Specification, SE 7. Crates are in order from the top down, and in a crate a file stands
before those that it cites. A definition has the first sentence of the comment above it, or else its name alone.
"""


# ---- the calls

def all_calls(crates):
    """The calls of all programs, each once, and the headline."""
    found = {}
    for program in programs(crates):
        for call in calls(crates, program):
            found.setdefault((call.place.path, call.name), call)
    headline = next(call for call in found.values() if call.name == HEADLINE)
    return headline, [call for call in found.values() if call is not headline]


# ---- parts of the page

def headline_part(crates, call, reached, everything):
    """The clauses of the headline, and how much has to be believed of them."""
    found = [it for it in reached.definitions.values() if it.place.path.endswith(".antt")]
    lines, whole = sum(it.lines for it in found), sum(it.lines for it in everything)
    return ["## What is promised", "", f"By `{call.name}` (`crates/{call.place.path}`):", "",
            *contract_part(crates, call),
            f"All below explains these words: {len(found)} of {len(everything)} definitions, in {lines} of {whole} "
            f"lines, and {len(reached.definitions) - len(found)} types of the code.", ""]


def reached_part(crates, reached):
    """What the headline reaches, crate by crate from the top down."""
    lines = ["## What it reaches", ""]
    files = by_file(reached.definitions)
    for crate in reversed(crates.names):
        if any(path.startswith(f"{crate}/") for path in files):
            lines += crate_part(crates, crate, files, reached.cites)
    return lines


def others_part(crates, others, reached):
    """What the other calls reach that is not listed above, each behind its clauses, by names alone."""
    lines = ["## What the calls of other programs add", ""]
    listed = dict(reached.definitions)
    for call in others:
        own = walk(crates, [call])
        new = {key: it for key, it in own.definitions.items() if key not in listed}
        listed |= new
        lines += [f"### `{call.name}` of `{call.program}`", "", f"`crates/{call.place.path}`: it reaches "
                  f"{len(own.definitions)} definitions and types, of which {len(new)} stand nowhere above.", ""]
        lines += contract_part(crates, call) + names_by_file(crates, new, own.cites) + [""]
    return lines


def library_part(reached):
    """The names of Rattle's own library that are cited, by their modules."""
    lines = ["## What it names of Rattle's library", ""]
    modules = {}
    for it in sorted(reached.library):
        modules.setdefault(it.module.removeprefix("Rattle."), []).append(it.name)
    for module, names in modules.items():
        lines += wrapped(names, f"**{module}** ")
    return lines + [""]


def page(crates):
    """The whole page."""
    headline, others = all_calls(crates)
    reached = walk(crates, [headline])
    everything = [it for file in crates.all_specs() for it in file.definitions.values()]
    lines = HEAD.split("\n") + headline_part(crates, headline, reached, everything)
    lines += notes_part(crates, headline, reached, f"{FOLDER}/{FOR_PROOFS}")
    lines += reached_part(crates, reached) + library_part(reached) + others_part(crates, others, reached)
    lines += ["## Counts", "", "Without comments and imports.", ""]
    lines += counts_part(crates, reached.definitions, everything)
    return re.sub(r"\n{3,}", "\n\n", "\n".join(lines)).strip() + "\n"


# ---- the page in the repository

def difference(found, wanted):
    """The first line in which two pages differ, or None."""
    these, those = found.split("\n"), wanted.split("\n")
    for number in range(max(len(these), len(those))):
        pair = [it[number] if number < len(it) else "(the end)" for it in (these, those)]
        if pair[0] != pair[1]:
            return f"{PAGE}:{number + 1} is stale\n  it says   {pair[0]}\n  it has to {pair[1]}"
    return None


def check(wanted):
    """Tells where the page is stale; answers the status."""
    found = ""
    if os.path.exists(f"{TOP}/{PAGE}"):
        with open(f"{TOP}/{PAGE}") as file:
            found = file.read()
    stale = difference(found, wanted)
    if stale:
        print(f"{stale}\ntools/believe/believe.py makes it")
    return 1 if stale else 0


def why(crates, name):
    """Tells how the headline comes to the definitions of a name; answers the status."""
    reached = walk(crates, [all_calls(crates)[0]])
    found = [key for key in reached.definitions if key[1] == name]
    for key in found:
        print(" > ".join(f"{step[1]} ({step[0]})" for step in chain(reached, key)))
    return 0 if found else 1


def main():
    if "--why" in sys.argv[1:-1]:
        sys.exit(why(Crates(TOP), sys.argv[-1]))
    try:
        wanted = page(Crates(TOP))
    except (Lost, Unknown) as cause:
        print(cause)
        sys.exit(1)
    if "--check" in sys.argv[1:]:
        sys.exit(check(wanted))
    with open(f"{TOP}/{PAGE}", "w") as file:
        file.write(wanted)


main()
