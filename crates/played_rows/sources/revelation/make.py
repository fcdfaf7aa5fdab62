"""Makes the class files of the rows: `python3 sources/revelation/make.py`, in this crate's folder. javac makes them, and two are changed then: f of
Hidden becomes private, and the call of hashCode in Lower names the class of an array. All are of major 50."""
import os, struct, subprocess, tempfile

CLASSES = ["Main", "A", "B", "C", "Hidden", "Low", "Lower", "I", "X", "Y", "Never", "p/P", "q/Q"]


def u2(data, at):
    return struct.unpack_from(">H", data, at)[0]


def pool_of(data):
    """Each entry's tag and where it begins, and where the pool ends."""
    entries, at, number = {}, 10, 1
    while number < u2(data, 8):
        tag = data[at]
        entries[number] = (tag, at)
        at += 3 + u2(data, at + 1) if tag == 1 else 3 if tag in (7, 8) else 9 if tag in (5, 6) else 5
        number += 2 if tag in (5, 6) else 1
    return entries, at


def text(data, entries, number):
    at = entries[number][1]
    return data[at + 3:at + 3 + u2(data, at + 1)].decode()


def hide_f(data, entries, at):
    at += 12 + 2 * u2(data, at + 6)
    for _ in range(u2(data, at - 2)):
        if text(data, entries, u2(data, at + 2)) == "f":
            struct.pack_into(">H", data, at, 2)
        attributes, at = u2(data, at + 6), at + 8
        for _ in range(attributes):
            at += 6 + struct.unpack_from(">I", data, at + 2)[0]


def call_of_array(data, entries):
    array = next(it for it, (tag, at) in entries.items() if tag == 7 and text(data, entries, u2(data, at + 1)) == "[I")
    for tag, at in entries.values():
        if tag == 10 and text(data, entries, u2(data, entries[u2(data, at + 3)][1] + 1)) == "hashCode":
            struct.pack_into(">H", data, at + 1, array)


with tempfile.TemporaryDirectory() as folder:
    subprocess.run(["javac", "--release", "8", "-g:none", "-d", folder, "Main.java", "p/P.java", "q/Q.java"], cwd="sources/revelation", check=True)
    for name in CLASSES:
        data = bytearray(open(f"{folder}/{name}.class", "rb").read())
        data[7] = 50
        entries, end = pool_of(data)
        if name == "Hidden":
            hide_f(data, entries, end)
        if name == "Lower":
            call_of_array(data, entries)
        with open(f"data/revelation/classes/{os.path.basename(name)}.class", "wb") as out:
            out.write(data)
