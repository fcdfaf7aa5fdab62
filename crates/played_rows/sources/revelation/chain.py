"""Makes rows that tell what a revelation costs, and their class files: `python3 sources/revelation/chain.py COUNT KIND FOLDER`, where KIND is `below`,
`next` or `calls`. Main has COUNT methods, of which the first one calls f of the first class, and with `calls` each other one calls the method
before it. Of COUNT classes each is below the one before, or with `next` its f calls that of the next one. Under a root and with all methods
of Main entered the classes are loaded one by one, and with `next` each f is entered then. `again` is a row that enters one method 10,000,000
times. Both are played by `played_rows revelation timed FOLDER/rows FOLDER/*.class`."""
import struct, sys

count, kind, folder = int(sys.argv[1]), sys.argv[2], sys.argv[3]


def u2(*numbers):
    return struct.pack(f">{len(numbers)}H", *numbers)


class Pool:
    def __init__(self):
        self.numbers = {}

    def entry(self, content):
        return self.numbers.setdefault(content, len(self.numbers) + 1)

    def text(self, text):
        return self.entry(b"\x01" + u2(len(text)) + text.encode())

    def class_(self, name):
        return self.entry(b"\x07" + u2(self.text(name)))

    def method(self, owner, name):
        pair = self.entry(b"\x0c" + u2(self.text(name), self.text("()I")))
        return self.entry(b"\x0a" + u2(self.class_(owner), pair))


def write(name, superclass, methods):
    """Methods are their flags, names, descriptors, and code by the pool."""
    pool = Pool()
    head = u2(0x21, pool.class_(name), pool.class_(superclass), 0, 0, len(methods))
    for flags, method, descriptor, code in methods:
        code = code(pool)
        head += u2(flags, pool.text(method), pool.text(descriptor), 1, pool.text("Code"), 0, len(code) + 12, 1, 1, 0, len(code))
        head += code + u2(0, 0)
    data = b"\xca\xfe\xba\xbe" + u2(0, 50, len(pool.numbers) + 1) + b"".join(pool.numbers) + head + u2(0)
    with open(f"{folder}/{name}.class", "wb") as out:
        out.write(data)


def static_call(owner, name):
    return lambda pool: b"\xb8" + u2(pool.method(owner, name)) + b"\xac"


def constant(pool):
    return b"\x03\xac"


first = static_call("C0", "f") if kind == "next" else lambda pool: b"\x01\xb6" + u2(pool.method("C0", "f")) + b"\xac"
others = [static_call("Main", f"m{it - 1}") if kind == "calls" else constant for it in range(1, count)]
methods = [(9, f"m{it}", "()I", code) for it, code in enumerate([first] + others)]
write("Main", "java/lang/Object", methods + [(9, "main", "([Ljava/lang/String;)V", lambda pool: b"\xb1")])
for it in range(count):
    if kind == "next":
        write(f"C{it}", "java/lang/Object", [(9, "f", "()I", static_call(f"C{it + 1}", "f"))])
    else:
        write(f"C{it}", f"C{it - 1}" if it else "java/lang/Object", [(1, "f", "()I", constant)])
words = ["load:Main", "select:Main.m0"] + [f"enter:Main.m{it}" for it in range(count)]
for it in range(count):
    words += [f"load:C{it}"] + ([f"enter:C{it}.f"] if kind == "next" else [])
with open(f"{folder}/rows", "w") as out:
    out.write(" ".join(words) + "\n")
with open(f"{folder}/again", "w") as out:
    out.write("load:Main again:Main.m0\n")
