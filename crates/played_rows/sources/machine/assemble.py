"""Makes the class files that classes.txt lists: `python3 sources/machine/assemble.py`, in this crate's folder."""
import re, struct

CODES = {"aconst_null": 1, "iconst_1": 4, "iconst_2": 5, "iconst_3": 6, "iload_0": 26, "aload_0": 42, "astore_1": 76,
         "pop": 87, "dup": 89, "iadd": 96, "isub": 100, "ireturn": 172, "return": 177, "athrow": 191}
NAMED = {"getstatic": (178, 9), "putstatic": (179, 9), "invokevirtual": (182, 10), "invokespecial": (183, 10),
         "invokestatic": (184, 10)}
JUMPS = {"ifeq": 153, "jsr": 168}


def u2(number):
    return struct.pack(">H", number)


def u4(number):
    return struct.pack(">I", number)


class Pool:
    def __init__(self):
        self.entries = []

    def entry(self, content):
        if content not in self.entries:
            self.entries.append(content)
        return self.entries.index(content) + 1

    def text(self, text):
        return self.entry(b"\x01" + u2(len(text)) + text.encode())

    def class_(self, name):
        return self.entry(b"\x07" + u2(self.text(name)))

    def member(self, tag, reference):
        owner, name, descriptor = re.fullmatch(r"(.*)\.([^.(:]*):?(.*)", reference).groups()
        pair = self.entry(b"\x0c" + u2(self.text(name)) + u2(self.text(descriptor)))
        return self.entry(bytes([tag]) + u2(self.class_(owner)) + u2(pair))


def instruction(pool, at, word, rest):
    if word == "bipush":
        return bytes([16, int(rest)])
    if word == "iinc":
        return bytes([132] + [int(it) for it in rest.split()])
    if word == "ret":
        return bytes([169, int(rest)])
    if word == "new":
        return b"\xbb" + u2(pool.class_(rest))
    if word in JUMPS:
        return bytes([JUMPS[word]]) + u2(int(rest) - at)
    if word in NAMED:
        code, tag = NAMED[word]
        return bytes([code]) + u2(pool.member(tag, rest))
    return bytes([CODES[word]])


def method(pool, lines):
    access, name, descriptor, stack, local = lines[0]
    code, handlers = b"", []
    for words in lines[1:]:
        if words[0] == "handler":
            start, end, target, caught = words[1:]
            handlers.append(u2(int(start)) + u2(int(end)) + u2(int(target)) + u2(pool.class_(caught)))
        else:
            assert int(words[0]) == len(code), words
            code += instruction(pool, len(code), words[1], " ".join(words[2:]))
    body = u2(int(stack)) + u2(int(local)) + u4(len(code)) + code + u2(len(handlers)) + b"".join(handlers) + u2(0)
    return (u2(int(access, 16)) + u2(pool.text(name)) + u2(pool.text(descriptor)) + u2(1)
            + u2(pool.text("Code")) + u4(len(body)) + body)


def class_file(name, superclass, interfaces, fields, methods):
    pool = Pool()
    head = u2(0x21) + u2(pool.class_(name)) + u2(pool.class_(superclass))
    head += u2(len(interfaces)) + b"".join(u2(pool.class_(it)) for it in interfaces)
    body = u2(len(fields)) + b"".join(u2(int(a, 16)) + u2(pool.text(n)) + u2(pool.text(d)) + u2(0) for a, n, d in fields)
    body += u2(len(methods)) + b"".join(method(pool, lines) for lines in methods) + u2(0)
    return b"\xca\xfe\xba\xbe" + u2(0) + u2(50) + u2(len(pool.entries) + 1) + b"".join(pool.entries) + head + body


def read(text):
    file = None
    for line in text.splitlines():
        words = line.split()
        if not words or words[0].startswith("#"):
            continue
        if words[0] == "file":
            file = [words[1], words[3], "java/lang/Object", [], [], []]
            if "extends" in words:
                file[2] = words[words.index("extends") + 1]
            if "implements" in words:
                file[3] = words[words.index("implements") + 1:]
            yield file
        elif words[0] == "field":
            file[4].append(words[1:])
        elif words[0] == "method":
            file[5].append([words[1:4] + words[5:8:2]])
        else:
            file[5][-1].append(words)


for path, *parts in list(read(open("sources/machine/classes.txt").read())):
    with open(f"data/classes/{path}", "wb") as out:
        out.write(class_file(*parts))
