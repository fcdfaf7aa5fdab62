"""The records of swaps, by a reading of the rules that is not the program: what must come on the images of a row.

records.py FILE FIRST CLOCK:MARKS..   puts a record for each CLOCK:MARKS: the image of the class of FILE, whose first method with
Code has the number FIRST, with a letter a method for MARKS: O original, P plain, R root.
"""
import struct
import sys

ONE, TWO, THREE = (0x10, 0x12, 0x15, 0x16, 0x17, 0x18, 0x19, 0x36, 0x37, 0x38, 0x39, 0x3A, 0xA9, 0xBC), (0x11, 0x13, 0x14, 0x84), (0xC5,)
JUMPS = tuple(range(0x99, 0xA9)) + (0xC6, 0xC7)
RETURNS = tuple(range(0xAC, 0xB2))
FIVE = (0xB9,)


class Reader:
    def __init__(self, data):
        self.data, self.at = data, 0

    def take(self, count):
        self.at += count
        return self.data[self.at - count:self.at]

    def u1(self):
        return self.take(1)[0]

    def u2(self):
        return int.from_bytes(self.take(2), "big")

    def u4(self):
        return int.from_bytes(self.take(4), "big")


def u1(n):
    return bytes([n])


def u2(n):
    return n.to_bytes(2, "big")


def u4(n):
    return n.to_bytes(4, "big")


def s2(n):
    return struct.pack(">h", n)


def s4(n):
    return struct.pack(">i", n)


def pool_of(r):
    count, texts, start, index = r.u2(), {}, r.at, 1
    while index < count:
        tag = r.u1()
        if tag == 1:
            texts[index] = r.take(r.u2())
        else:
            r.take({3: 4, 4: 4, 5: 8, 6: 8, 7: 2, 8: 2, 9: 4, 10: 4, 11: 4, 12: 4}[tag])
        index += 2 if tag in (5, 6) else 1
    return count, texts, r.data[start:r.at]


def tail(c):
    def text(t):
        return u1(1) + u2(len(t)) + t

    def named(name):
        return u1(12) + u2(name) + u2(c + 2) + u1(10) + u2(c + 1) + u2(name + 1)

    out = text(b"jfluid/Probe") + u1(7) + u2(c) + text(b"(I)V")
    for k, name in enumerate((b"root", b"enter", b"leave", b"unwind")):
        out += text(name) + named(c + 3 + 3 * k)
    return out + text(b"java/lang/Throwable") + u1(7) + u2(c + 15) + text(b"StackMapTable")


def instructions(code):
    """Each instruction: offset, length, opcode, and a function from home and place to its bytes."""
    out, at = [], 0
    while at < len(code):
        op = code[at]
        if op in (0xAA, 0xAB):
            r = Reader(code)
            r.at = at + 1 + (3 - at % 4)
            whole = [r.u4() for _ in range(3 if op == 0xAA else 2)]
            count = whole[2] - whole[1] + 1 if op == 0xAA else whole[1]
            rows = [(None if op == 0xAA else r.take(4), r.u4()) for _ in range(count)]
            signed = lambda n: n - 2 ** 32 if n >= 2 ** 31 else n

            def spell(home, place, at=at, op=op, whole=whole, rows=rows):
                bytes_ = u1(op) + bytes(3 - place % 4) + s4(home(at + signed(whole[0])) - place)
                bytes_ += b"".join(u4(n) for n in whole[1:])
                return bytes_ + b"".join((key or b"") + s4(home(at + signed(to)) - place) for key, to in rows)

            out.append((at, r.at - at, op, spell))
            at = r.at
            continue
        length = 6 if op == 0xC4 and code[at + 1] == 0x84 else 4 if op == 0xC4 or op in THREE else 5 if op in (0xC8, 0xC9) or op in FIVE else \
            2 if op in ONE else 3 if op in TWO or op in JUMPS or 0xB2 <= op <= 0xB8 or op in (0xBB, 0xBD, 0xC0, 0xC1) else 1
        text = code[at:at + length]
        if op in JUMPS:
            to = at + struct.unpack(">h", text[1:])[0]
            out.append((at, length, op, lambda home, place, op=op, to=to: u1(op) + s2(home(to) - place)))
        elif op in (0xC8, 0xC9):
            to = at + struct.unpack(">i", text[1:])[0]
            out.append((at, length, op, lambda home, place, op=op, to=to: u1(op) + s4(home(to) - place)))
        else:
            out.append((at, length, op, lambda home, place, text=text: text))
        at += length
    return out


def frames_moved(r, home, place, last, throwable):
    def kind():
        tag = r.u1()
        return u1(tag) + (r.take(2) if tag == 7 else u2(place(r.u2())) if tag == 8 else b"")

    out, at, before = [], -1, -1
    count = r.u2()
    for _ in range(count):
        tag = r.u1()
        delta = tag if tag < 64 else tag - 64 if tag < 128 else r.u2()
        at = at + 1 + delta
        move = home(at) - before - 1
        before = home(at)
        if tag < 64 or tag == 251:
            out.append(u1(move) if move < 64 else u1(251) + u2(move))
        elif tag < 128 or tag == 247:
            item = kind()
            out.append((u1(64 + move) if move < 64 else u1(247) + u2(move)) + item)
        elif tag < 251:
            out.append(u1(tag) + u2(move))
        elif tag < 255:
            out.append(u1(tag) + u2(move) + b"".join(kind() for _ in range(tag - 251)))
        else:
            locals_ = r.u2()
            text = u1(255) + u2(move) + u2(locals_) + b"".join(kind() for _ in range(locals_))
            stack = r.u2()
            out.append(text + u2(stack) + b"".join(kind() for _ in range(stack)))
    out.append(u1(255) + u2(last - before - 1) + u2(0) + u2(1) + u1(7) + u2(throwable))
    return u2(count + 1) + b"".join(out)


def version(text, c, texts, major, number, mark):
    r = Reader(text)
    max_stack, max_locals = r.u2(), r.u2()
    code = r.take(r.u4())
    handlers = [tuple(r.u2() for _ in range(4)) for _ in range(r.u2())]
    attributes = [(r.u2(), r.take(r.u4())) for _ in range(r.u2())]
    probe = lambda k: u1(17) + u2(number) + u1(0xB8) + u2(c + 5 + 3 * k)
    lines = instructions(code)
    homes, places, at = {}, {}, 6
    for offset, length, op, spell in lines:
        homes[offset] = at
        at += 6 if op in RETURNS else 0
        places[offset] = at
        at += len(spell(lambda t: 0, at))
    homes[len(code)] = places[len(code)] = at
    up = lambda table: lambda t: table[min([k for k in table if k >= t] or [len(code)])]
    home, place = up(homes), up(places)
    new = probe(0 if mark == "R" else 1)
    for offset, length, op, spell in lines:
        new += (probe(2) if op in RETURNS else b"") + spell(home, places[offset])
    new += probe(3) + u1(0xBF)
    handlers = [(home(a), home(b), home(h), t) for a, b, h, t in handlers] + [(home(0), at, at, 0)]
    out, framed = [], False
    for name, bytes_ in attributes:
        called = texts[name]
        if called == b"LineNumberTable":
            rows = Reader(bytes_)
            count = rows.u2()
            bytes_ = u2(count) + b"".join(u2(home(rows.u2())) + rows.take(2) for _ in range(count))
        elif called in (b"LocalVariableTable", b"LocalVariableTypeTable"):
            rows, text = Reader(bytes_), b""
            count = rows.u2()
            for _ in range(count):
                start, long = rows.u2(), rows.u2()
                text += u2(home(start)) + u2(home(start + long) - home(start)) + rows.take(6)
            bytes_ = u2(count) + text
        elif called == b"StackMapTable" and major == 50:
            bytes_, framed = frames_moved(Reader(bytes_), home, place, at, c + 16), True
        out.append((name, bytes_))
    if major == 50 and not framed:
        out.append((c + 17, frames_moved(Reader(u2(0)), home, place, at, c + 16)))
    text = u2(max(max_stack + 1, 2)) + u2(max_locals) + u4(len(new)) + new + u2(len(handlers)) + b"".join(u2(n) for h in handlers for n in h)
    return text + u2(len(out)) + b"".join(u2(name) + u4(len(b)) + b for name, b in out)


def image(data, first, marks):
    if set(marks) <= {"O"}:
        return data
    r = Reader(data)
    head = r.take(8)
    major = head[7]
    c, texts, pool = pool_of(r)
    out = head + u2(c + 18) + pool + tail(c)
    start = r.at
    r.take(6)
    r.take(2 * r.u2())
    for _ in range(r.u2()):
        r.take(6)
        for _ in range(r.u2()):
            r.take(2)
            r.take(r.u4())
    count = r.u2()
    out += data[start:r.at]
    number = first
    for method in range(count):
        out += r.take(6)
        attributes = r.u2()
        out += u2(attributes)
        for _ in range(attributes):
            name, text = r.u2(), None
            text = r.take(r.u4())
            if texts[name] == b"Code":
                if marks[method] != "O":
                    text = version(text, c, texts, major, number, marks[method])
                number += 1
            out += u2(name) + u4(len(text)) + text
    return out + data[r.at:]


def main():
    data, first = open(sys.argv[1], "rb").read(), int(sys.argv[2])
    for word in sys.argv[3:]:
        clock, marks = word.split(":")
        made = image(data, first, marks)
        sys.stdout.buffer.write(int(clock).to_bytes(8, "big") + u4(len(made)) + made)


if __name__ == "__main__":
    main()
