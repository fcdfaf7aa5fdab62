"""Follows names from file to file: which definitions a contract reaches."""
import os
import re
from dataclasses import dataclass, field

from sources import SourceFile, contract_words
from specs import SpecFile
from text import Place

VARIANTS, CONSTANTS = "TheVariants", "TheConstants"
CHOICE = "if◌then◌else◌"


@dataclass
class Call:
    """A call that a program makes: a function with clauses."""
    program: str
    place: Place
    name: str
    words: set


@dataclass(frozen=True, order=True)
class Named:
    """A name of a module that is not ours: of Rattle's library."""
    module: str
    name: str


class Lost(Exception):
    """A name of ours is not found. The walk refuses it: what it does not find it would leave out."""


class Crates:
    """The files of all crates, each read once, and the search for what a word means in one of them."""

    def __init__(self, top):
        self.top = top
        self.files = {}
        self.meanings = {}
        with open(f"{top}/crates.txt") as file:
            self.names = [line.split(":")[0].split()[0] for line in file if line.strip() and line[0] != "#"]

    # ---- files

    def file(self, path):
        """The file at this path below crates/, or None."""
        if path not in self.files:
            self.files[path] = self.read(path)
        return self.files[path]

    def read(self, path):
        whole = f"{self.top}/crates/{path}"
        if not os.path.isfile(whole):
            return None
        with open(whole) as file:
            text = file.read()
        if path.endswith(".rt"):
            return SourceFile(Place(path), text)
        found = SpecFile(Place(path), text)
        found.read_terms(lambda word: self.is_constructor(found, word))
        return found

    def spec(self, module):
        """The file of a module `Rattle.CRATE.specs.A.B`, or None where it is none of ours."""
        parts = module.split(".")
        if parts[0] != "Rattle" or parts[1] not in self.names or parts[2] != "specs":
            return None
        return self.file("/".join([parts[1], "specs"] + parts[3:]) + ".antt") or self.passed_on(parts)

    def passed_on(self, parts):
        """The file of a module that a crate has from one below, by a line `pub use` of its Lib."""
        lib = self.file(f"{parts[1]}/specs/Lib.antt")
        if lib and len(parts) > 3 and parts[3] in lib.modules:
            return self.spec(".".join([lib.modules[parts[3]], *parts[4:]]))
        return None

    def source(self, crate, modules):
        """The file of a module of code."""
        if not modules:
            return self.file(f"{crate}/src/lib.rt") or self.file(f"{crate}/src/main.rt")
        inner = "/".join(modules)
        return self.file(f"{crate}/src/{inner}.rt") or self.file(f"{crate}/src/{inner}/mod.rt")

    def all_specs(self):
        """Every file of definitions of every crate."""
        for crate in self.names:
            for folder, folders, files in sorted(os.walk(f"{self.top}/crates/{crate}/specs")):
                folders.sort()
                for name in sorted(files):
                    if name.endswith(".antt"):
                        yield self.file(os.path.relpath(f"{folder}/{name}", f"{self.top}/crates"))

    # ---- names

    def resolve(self, file, word):
        """What a word of a file names: (file, definition's name), a name of the library, or None."""
        key = (file.place.path, word)
        if key not in self.meanings:
            self.meanings[key] = self.look_up(file, word)
        return self.meanings[key]

    def look_up(self, file, word):
        """Finds it: an import goes before what stands in the file, and a name of code is the last that is tried."""
        first, *more = word.split(".")
        if any(it in file.imports for it in spellings(first)):
            return self.imported(file, first)
        found = self.local(file, first)
        if found:
            return found
        if first in file.modules and more:
            return self.item(file.modules[first], more)
        if isinstance(file, SourceFile):
            return self.rust(file, first, set())
        return None

    def local(self, file, word):
        for name in spellings(word):
            if name in file.definitions:
                return file, name
        if isinstance(file, SpecFile) and word in file.constructors:
            return file, file.constructors[word]
        return None

    def imported(self, file, word):
        for name in spellings(word):
            if name in file.imports:
                module, item = file.imports[name]
                return self.item(module, [item])
        return None

    def item(self, module, names):
        """An item of a module that a path names; behind an alias of a module a submodule may come first."""
        parts = module.split(".")
        if parts[0] == "Rattle" and parts[1] in self.names and parts[2:4] == ["specs", "declared"]:
            return self.declared(parts[1], parts[4:] + names)
        if len(names) > 1 and self.spec(f"{module}.{names[0]}"):
            return self.item(f"{module}.{names[0]}", names[1:])
        if parts[0] != "Rattle" or parts[1] not in self.names:
            return Named(module, names[0])
        spec, data = self.spec(module), None
        if spec is None:
            spec, data = self.spec(".".join(parts[:-1])), parts[-1]
        found = spec and (self.local(spec, data or names[0]) or self.imported(spec, data or names[0]))
        if not found:
            raise Lost(f"{module} has no {names[0]}")
        return found

    def declared(self, crate, parts):
        """A type, a variant of it, or a constant of the code: `specs.declared.A.B.TYPE..`."""
        for split in range(len(parts), -1, -1):
            file = self.source(crate, parts[:split])
            if file:
                names = [it for it in parts[split:] if it not in (VARIANTS, CONSTANTS)]
                found = names and self.rust(file, names[0], set())
                if found:
                    return found
        raise Lost(f"the code of {crate} has no {'.'.join(parts)}")

    def rust(self, file, word, seen):
        """What a name of code means in a file: a type of the file, or of one that it imports."""
        if (file.place.path, word) in seen:
            return None
        seen.add((file.place.path, word))
        if word in file.definitions:
            return file, word
        path = (file.uses.get(word) or "").split("::")
        found = self.at_path(file, path, seen) if path[0] else None
        if not found and path[0] in ("crate", "super", *self.names):
            raise Lost(f"crates/{file.place.path} uses {'::'.join(path)}, which is no type")
        return found

    def at_path(self, file, path, seen):
        """What a path of code names, as seen from a file."""
        crate, modules = file.place.crate, module_of(file.place)
        if path[0] == "crate":
            modules, path = [], path[1:]
        elif path[0] == "super":
            modules, path = modules[:-1], path[1:]
        elif path[0] in self.names:
            crate, modules, path = path[0], [], path[1:]
        elif not self.source(crate, modules + path[:1]):
            if modules or not self.source(crate, path[:1]):
                return None
        while len(path) > 1 and self.source(crate, modules + path[:1]):
            modules, path = modules + path[:1], path[1:]
        target = self.source(crate, modules)
        return self.rust(target, path[0], seen) if target else None

    def is_constructor(self, file, word):
        """Whether a word of a pattern is a constructor: of data, of an enum, or of the library."""
        if word in file.constructors:
            return True
        if word not in file.imports:
            return False
        module, name = file.imports[word]
        if module.endswith(VARIANTS):
            return True
        spec = self.spec(module)
        if spec is None:
            return True
        return name in spec.constructors or (name in spec.imports and self.is_constructor(spec, name))


def spellings(word):
    """The names that a word of a term may be: its own, that of an operator, or that of the choice."""
    return (word, f"◌{word}◌", CHOICE) if word == "if" else (word, f"◌{word}◌")


def module_of(place):
    """The module that a file of code is, as a list of names."""
    parts = place.inner.removesuffix(".rt").split("/")[1:]
    if parts[-1] in ("lib", "main", "mod"):
        parts.pop()
    return parts


# ---- calls of programs

def programs(crates):
    """The crates that are programs, the highest last."""
    return [it for it in crates.names if crates.file(f"{it}/src/main.rt")]


def calls(crates, program):
    """The functions with clauses that the `main` of a program names."""
    file = crates.file(f"{program}/src/main.rt")
    body = file.plain[file.contracts["main"].body:]
    found = []
    for name in dict.fromkeys(re.findall(r"(?<![\w.:])([a-z]\w*)\(", body)):
        target = function(crates, file, name, set())
        if target and target[0] is not file and target[0].contracts[target[1]].clauses:
            found.append(call_of(program, *target))
    return found


def call_of(program, file, name):
    contract = file.contracts[name]
    return Call(program, file.place, name, contract_words(contract.head, contract.clauses))


def function(crates, file, name, seen):
    """The file and name of a function that a name of a file means."""
    if name in file.contracts:
        return file, name
    path = file.uses.get(name)
    if not path or (file.place.path, name) in seen:
        return None
    seen.add((file.place.path, name))
    parts = path.split("::")
    crate, modules = file.place.crate, []
    if parts[0] == "crate":
        parts = parts[1:]
    elif parts[0] in crates.names:
        crate, parts = parts[0], parts[1:]
    while len(parts) > 1 and crates.source(crate, modules + parts[:1]):
        modules, parts = modules + parts[:1], parts[1:]
    target = crates.source(crate, modules)
    return function(crates, target, parts[-1], seen) if target and len(parts) == 1 else None


# ---- the walk

@dataclass
class Reached:
    """What contracts reach: the definitions in the order in which they are found, by which each was found, which files
    cite which, and which names of Rattle's library are cited."""
    definitions: dict = field(default_factory=dict)
    found_by: dict = field(default_factory=dict)
    cites: dict = field(default_factory=dict)
    library: set = field(default_factory=set)


def walk(crates, some_calls, without=()):
    """All definitions that the contracts of calls reach, breadth first; without some, and what those alone cite."""
    reached = Reached()
    queue = [(crates.file(call.place.path), word, (call.place.path, call.name))
             for call in some_calls for word in sorted(call.words)]
    for file, word, citing in queue:
        target = crates.resolve(file, word)
        if isinstance(target, Named):
            reached.library.add(target)
        elif target and (target[0].place.path, target[1]) not in without:
            take(reached, queue, citing, *target)
    return reached


def take(reached, queue, citing, file, name):
    """Notes a definition that another one cites, and, where it is new, what it names itself."""
    key = (file.place.path, name)
    if key[0] != citing[0]:
        reached.cites.setdefault(citing[0], set()).add(key[0])
    if key not in reached.definitions:
        definition = file.definitions[name]
        reached.definitions[key] = definition
        reached.found_by[key] = citing
        queue.extend((file, it, key) for it in sorted(definition.words))


def chain(reached, key):
    """From what calls name down to a definition: each cites the next."""
    found = [key]
    while found[0] in reached.found_by:
        found.insert(0, reached.found_by[found[0]])
    return found
