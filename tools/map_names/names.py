#!/usr/bin/env python3
"""names.py: tells each file, definition and function that the page MAP.md of crates/map_rows names in backquotes and
that is not there, and where the list of files that crates/map_rows reads is not what git keeps; status 1 if anything is
told. --write makes that list first."""
import os
import re
import subprocess
import sys

TOP = os.path.dirname(os.path.dirname(os.path.dirname(os.path.abspath(__file__))))

PAGE = "crates/map_rows/data/MAP.md"
LIST = "crates/map_rows/data/files"


def listed():
    """The paths that the list must have: of the files that git keeps, without the data of the crates, each with a / in front."""
    told = subprocess.run(["git", "ls-files", "-z", "crates", "docs", "tools"], cwd=TOP, capture_output=True, text=True, check=True)
    paths = {path for path in told.stdout.split("\0") if path and not re.match("crates/[^/]*/data/", path)}
    return [f"/{path}" for path in sorted(paths)]


def check_list(write):
    """Writes the list, or tells in what it differs; answers whether it does."""
    wanted = listed()
    if write:
        with open(f"{TOP}/{LIST}", "w") as file:
            file.writelines(f"{path}\n" for path in wanted)
    with open(f"{TOP}/{LIST}") as file:
        found = file.read()
    for path in sorted(set(wanted) ^ set(found.splitlines())):
        print(f"{LIST} {'lacks' if path in wanted else 'has'} {path}")
    return found != "".join(f"{path}\n" for path in wanted)


def sources():
    """The paths of all sources below crates/, without what a build leaves."""
    for folder, folders, files in os.walk(f"{TOP}/crates"):
        folders[:] = [it for it in folders if it not in ("out", "data")]
        for name in files:
            yield os.path.relpath(f"{folder}/{name}", f"{TOP}/crates")


def main():
    differs = check_list("--write" in sys.argv[1:])
    paths = list(sources())
    endings = {"/".join(path.split("/")[at:]) for path in paths for at in range(len(path.split("/")))}
    bare = {it.rsplit(".", 1)[0] for it in endings}
    folders = {part for path in paths for part in path.split("/")[:-1]}
    words = set()
    for path in paths:
        if path.endswith((".rt", ".antt")):
            with open(f"{TOP}/crates/{path}") as file:
                words.update(re.findall(r"[A-Za-z_][A-Za-z0-9_-]*", file.read()))
    wrong = []
    with open(f"{TOP}/{PAGE}") as file:
        text = re.sub(r"```.*?```", "", file.read(), flags=re.S)
    for name in re.findall(r"`([^`\n]+)`", text):
        name = name.rstrip("/")
        if re.fullmatch(r"(?:[\w+.-]+/)+[\w+.-]+", name):
            there = name in endings or name in bare or os.path.exists(f"{TOP}/{name}") or os.path.exists(f"{TOP}/crates/{name}")
            # a folder of a crate, or of one that is named before it
            there = there or any(f"/{name}/" in f"/{path}" for path in paths)
        elif name.endswith(".rt"):
            there = name in endings
        elif re.fullmatch(r"[A-Za-z_][\w-]*(?:(?:::|\.)[A-Za-z_][\w-]*)*", name):
            there = all(part in words or part in bare or part in folders for part in re.split(r"::|\.", name))
        else:
            continue
        if not there:
            wrong.append(name)
    for name in wrong:
        print(f"{PAGE} names {name}, which is not there")
    if differs:
        print(f"{LIST} is not what git keeps: tools/map_names/names.py --write makes it")
    sys.exit(1 if wrong or differs else 0)


main()
