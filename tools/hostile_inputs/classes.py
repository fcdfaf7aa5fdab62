"""A writer of class files, for what no compiler writes."""
import struct

NAME, CODE, MAIN = "java/lang/Object", "Code", "([Ljava/lang/String;)V"
PUBLIC, STATIC, INTERFACE, ABSTRACT = 1, 8, 0x200, 0x400


def u1(n):
    return struct.pack(">B", n)


def u2(n):
    return struct.pack(">H", n)


def u4(n):
    return struct.pack(">I", n)


class Pool:
    def __init__(self):
        self.entries, self.places = [], {}

    def add(self, key, entry):
        if key not in self.places:
            self.entries.append(entry)
            self.places[key] = len(self.entries)
        return self.places[key]

    def text(self, text):
        return self.add(("text", text), u1(1) + u2(len(text)) + text.encode())

    def named(self, name):
        return self.add(("class", name), u1(7) + u2(self.text(name)))

    def pair(self, name, descriptor):
        return self.add(("pair", name, descriptor), u1(12) + u2(self.text(name)) + u2(self.text(descriptor)))

    def member(self, tag, owner, name, descriptor):
        return self.add((tag, owner, name, descriptor), u1(tag) + u2(self.named(owner)) + u2(self.pair(name, descriptor)))

    def field(self, owner, name, descriptor):
        return self.member(9, owner, name, descriptor)

    def method(self, owner, name, descriptor):
        return self.member(10, owner, name, descriptor)

    def of_interface(self, owner, name, descriptor):
        return self.member(11, owner, name, descriptor)


def attribute(pool, name, contents):
    return u2(pool.text(name)) + u4(len(contents)) + contents


def code(pool, text, stack=4, local=4, handlers=b"", attributes=()):
    return attribute(pool, CODE, u2(stack) + u2(local) + u4(len(text)) + text + u2(len(handlers) // 8) + handlers
                     + u2(len(attributes)) + b"".join(attributes))


def member(pool, flags, name, descriptor, attributes=()):
    return u2(flags) + u2(pool.text(name)) + u2(pool.text(descriptor)) + u2(len(attributes)) + b"".join(attributes)


def main_method(pool, text=b"\xb1", **more):
    return member(pool, PUBLIC | STATIC, "main", MAIN, [code(pool, text, **more)])


def class_file(pool, name, methods=(), fields=(), interfaces=(), attributes=(), above=NAME, flags=33, major=49):
    this, up = pool.named(name), pool.named(above)
    faces = [pool.named(face) for face in interfaces]
    body = u2(flags) + u2(this) + u2(up) + u2(len(faces)) + b"".join(map(u2, faces))
    for items in (fields, methods, attributes):
        body += u2(len(items)) + b"".join(items)
    return u4(0xCAFEBABE) + u2(0) + u2(major) + u2(len(pool.entries) + 1) + b"".join(pool.entries) + body
