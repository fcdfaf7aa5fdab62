"""Runs jfluid on files that are as large, as empty, as wide or as deep as its limits allow, and looks at what it answers.

hostile.py JFLUID [--keep FOLDER] [CASE..]   JFLUID is the built program; without a CASE all cases run, one after the other.

Each case makes its files, states the status that must come and what the first line of the report begins with, and runs
with 8 MiB of stack and 2 GiB of address space. A line tells the status, the seconds of a processor and of the clock, and
the most memory. A case fails where another status or line comes, where the program is ended by a signal (a stack that
overflows), or where it takes more than SECONDS by the clock. With a root the classes are rewritten and the tree is kept.
"""
import argparse
import os
import resource
import shutil
import subprocess
import sys
import tempfile
import time

from classes import ABSTRACT, INTERFACE, MAIN, NAME, PUBLIC, STATIC, Pool, attribute, class_file, code, main_method, member, u1, u2, u4

STACK, SPACE, SECONDS, MOST = 8 << 20, 2 << 30, 60, 4_194_304
RETURN = b"\xb1"


class Case:
    """Files, words and input, the status that must come, and what the report begins with. Where it may take more than is
    there, status 9 with its line is right as well."""

    def __init__(self, files, words=(), status=0, line="ending returned", given=b"", main="Main", named=None, large=False):
        self.files, self.status, self.line, self.given, self.large = files, status, line, given, large
        self.words = ["--main", main, *words, *(named or [n for n in files if n.endswith(".class")])]


def padded(make, most=MOST):
    """A class file that is filled to the greatest length by one attribute of zeros, where it has room for it."""
    bytes_ = make(0)
    return make(most - len(bytes_))


def filler(pool, length):
    return [attribute(pool, "Filler", bytes(length))]


# ---- files of four megabytes that are empty, each in its way

def main_of(**more):
    def make(length):
        pool = Pool()
        return class_file(pool, "Main", [main_method(pool)], attributes=filler(pool, length), **more)
    return padded(make)


def zeros_alone():
    return Case({"Main.class": bytes(MOST)}, status=3, line="jfluid: Main.class: BadMagic")


def zeros_behind_a_head():
    return Case({"Main.class": b"\xca\xfe\xba\xbe\0\0\0\x31" + bytes(MOST - 8)}, status=3, line="jfluid: Main.class: ")


def one_byte_too_long():
    return Case({"Main.class": bytes(MOST + 1)}, status=3, line="jfluid: Main.class: TooLong")


def one_attribute_of_zeros():
    return Case({"Main.class": main_of()})


def with_full_pool(entry, entries=65_516, **told):
    """A class whose pool has so many entries, of which all that it does not need are this one. The greatest number that leaves
    room for an image's is 65,516."""
    pool = Pool()
    methods = [main_method(pool)]
    class_file(pool, "Main", methods)
    while len(pool.entries) < entries:
        pool.entries.append(entry)
    return Case({"Main.class": class_file(pool, "Main", methods)}, **told)


def empty_texts():
    """Each entry of the pool is a text without units."""
    return with_full_pool(u1(1) + u2(0))


def texts_of_zeros():
    """The texts fill the file: a zero in a text is two bytes."""
    return with_full_pool(u1(1) + u2(60) + b"\xc0\x80" * 30)


def pool_one_too_full():
    return with_full_pool(u1(1) + u2(0), 65_517, status=3, line="jfluid: Main.class: NotProfilable 0 Pool")


def names(pool, count):
    """So many pairs of a name and a descriptor of a method, of few entries of the pool."""
    letters = "IJSBCZ"
    kinds = ["(" + a + b + c + ")V" for a in letters for b in letters for c in letters]
    wide = [f"m{k}" for k in range(count // len(kinds) + 1)]
    return [(name, kind) for name in wide for kind in kinds][:count]


def empty_fields():
    """65,535 fields, each with six attributes without a byte."""
    pool = Pool()
    empty = [attribute(pool, "A", b"")] * 6
    kinds = [d + k for d in ("", "[", "[[", "[[[") for k in "IJSBCZ"]
    fields = [member(pool, STATIC, f"f{n // len(kinds)}", kinds[n % len(kinds)], empty) for n in range(65_535)]
    return Case({"Main.class": class_file(pool, "Main", [main_method(pool)], fields)})


def empty_methods():
    """65,535 methods without Code, each with six attributes without a byte, in an abstract class."""
    pool = Pool()
    empty = [attribute(pool, "A", b"")] * 6
    methods = [main_method(pool)] + [member(pool, PUBLIC | ABSTRACT, n, d, empty) for n, d in names(pool, 65_534)]
    return Case({"Main.class": class_file(pool, "Main", methods, flags=33 | ABSTRACT)})


def methods_with_code(count, status, line, **more):
    pool = Pool()
    text = [code(pool, RETURN, 0, 8)]
    methods = [main_method(pool)] + [member(pool, STATIC, n, d, text) for n, d in names(pool, count - 1)]
    return Case({"Main.class": class_file(pool, "Main", methods)}, status=status, line=line, **more)


def each_method_has_code():
    """65,535 methods with Code are more than a program may have: those of the built-in classes come to them."""
    return methods_with_code(65_535, 3, "jfluid: TooManyMethods ")


def thirty_thousand_methods():
    return methods_with_code(30_000, 0, "ending returned")


def thirty_thousand_methods_with_a_root():
    return methods_with_code(30_000, 0, "ending returned", words=["--root", "Main.main" + MAIN])


def empty_attributes(place):
    """65,535 attributes without a byte in a class, in ten methods, or in ten codes."""
    pool = Pool()
    empty = [attribute(pool, "A", b"")]
    pool.text("Code")
    if place == "class":
        return class_file(pool, "Main", [main_method(pool)], attributes=empty * 65_535)
    if place == "method":
        methods = [member(pool, PUBLIC | ABSTRACT, f"m{n}", "()V", empty * 65_535) for n in range(10)]
    else:
        methods = [member(pool, STATIC, f"m{n}", "()V", [code(pool, RETURN, attributes=empty * 65_534)]) for n in range(10)]
    return class_file(pool, "Main", [main_method(pool)] + methods, flags=33 | ABSTRACT)


def nops(length):
    return bytes(length - 1) + RETURN


def codes_of_nops():
    """63 codes of 65,516 bytes, the most that can be rewritten, each nop but the last."""
    pool = Pool()
    methods = [member(pool, STATIC, f"m{n}", "()V", [code(pool, nops(65_516))]) for n in range(63)]
    return Case({"Main.class": class_file(pool, "Main", [main_method(pool)] + methods)})


def codes_of_nops_with_a_root():
    """They are called one after the other under a root, so each is rewritten and run."""
    pool = Pool()
    called = b"".join(b"\xb8" + u2(pool.method("Main", f"m{n}", "()V")) for n in range(63)) + RETURN
    methods = [member(pool, STATIC, f"m{n}", "()V", [code(pool, nops(65_516))]) for n in range(63)]
    made = class_file(pool, "Main", [main_method(pool, called)] + methods)
    return Case({"Main.class": made}, words=["--root", "Main.main" + MAIN, "--images"], large=True)


def handlers():
    """Six codes with 65,534 handlers each, all over one instruction."""
    pool = Pool()
    rows = (u2(0) + u2(1) + u2(0) + u2(0)) * 65_534
    methods = [member(pool, STATIC, f"m{n}", "()V", [code(pool, RETURN, handlers=rows)]) for n in range(6)]
    return Case({"Main.class": class_file(pool, "Main", [main_method(pool)] + methods)})


def handlers_that_are_searched():
    """main throws with 65,534 handlers of a class that it is not of, none of which matches."""
    pool = Pool()
    rows = (u2(0) + u2(2) + u2(2) + u2(pool.named("java/lang/ArithmeticException"))) * 65_534
    text = b"\x01\xbf\xb1"
    return Case({"Main.class": class_file(pool, "Main", [main_method(pool, text, handlers=rows)])}, status=1,
                line="ending uncaught java/lang/NullPointerException", words=["--root", "Main.main" + MAIN])


def empty_frames():
    """60 codes with a frame at each of 65,000 instructions, each frame one byte."""
    pool = Pool()
    text = nops(65_001)
    table = attribute(pool, "StackMapTable", u2(65_000) + bytes(65_000))
    methods = [member(pool, STATIC, f"m{n}", "()V", [code(pool, text, attributes=[table])]) for n in range(32)]
    return Case({"Main.class": class_file(pool, "Main", [main_method(pool)] + methods, major=50)},
                words=["--root", "Main.m0()V"])


def line_tables():
    """Fifteen tables of 65,535 lines, all of offset 0."""
    pool = Pool()
    table = attribute(pool, "LineNumberTable", u2(65_535) + bytes(4 * 65_535))
    methods = [member(pool, STATIC, f"m{n}", "()V", [code(pool, RETURN, attributes=[table])]) for n in range(15)]
    return Case({"Main.class": class_file(pool, "Main", [main_method(pool)] + methods)}, words=["--root", "Main.m0()V"])


def many_interfaces():
    """A class names 65,000 interfaces, all one that is not there: it is admitted, and loading it throws."""
    pool = Pool()
    return Case({"Main.class": class_file(pool, "Main", [main_method(pool)], interfaces=["Absent"] * 65_000)}, status=1,
                line="ending uncaught java/lang/NoClassDefFoundError")


# ---- many files

def small(name, above=NAME, interfaces=(), flags=33, calls=None, static=False):
    pool = Pool()
    methods = []
    if calls is not None:
        methods.append(main_method(pool, calls(pool)))
    if static:
        methods.append(member(pool, STATIC, "<clinit>", "()V", [code(pool, RETURN)]))
    return class_file(pool, name, methods, above=above, interfaces=interfaces, flags=flags)


def create(name):
    """Makes an object of a class, without a constructor."""
    return lambda pool: b"\xbb" + u2(pool.named(name)) + b"\x57" + RETURN


def thousand_files():
    files = {"Main.class": small("Main", calls=create("C1023"))}
    files.update({f"C{n}.class": small(f"C{n}") for n in range(1, 1024)})
    return Case(files)


def one_file_too_many():
    case = thousand_files()
    return Case({**case.files, "C1024.class": small("C1024")}, status=2, line="jfluid: words refused")


def one_file_thousand_times():
    """The same file is named 1,024 times."""
    return Case({"Main.class": small("Main", calls=lambda pool: RETURN)}, named=["Main.class"] * 1024, status=3,
                line="jfluid: Main.class: Duplicate")


def sixteen_large_files():
    def large(name):
        def make(length):
            pool = Pool()
            return class_file(pool, name, [main_method(pool)], attributes=filler(pool, length))
        return padded(make)
    return Case({f"{name}.class": large(name) for name in ["Main"] + [f"L{n}" for n in range(15)]})


def superclasses():
    """A chain of 1,024 classes, the most that files can make, each the superclass of the one before; all are initialized."""
    files = {"Main.class": small("Main", calls=create("C1"))}
    for n in range(1, 1024):
        files[f"C{n}.class"] = small(f"C{n}", above=f"C{n + 1}" if n < 1023 else NAME, static=True)
    return Case(files)


def superclasses_with_a_root():
    case = superclasses()
    return Case(case.files, words=["--root", "Main.main" + MAIN])


def circle_of_superclasses():
    files = {"Main.class": small("Main", calls=create("C1"))}
    for n in range(1, 1024):
        files[f"C{n}.class"] = small(f"C{n}", above=f"C{n % 1023 + 1}")
    return Case(files, status=1, line="ending uncaught java/lang/ClassCircularityError")


def interfaces(wide, deep, words=()):
    """So many levels of so many interfaces, of which each extends all of the level below; a class has the uppermost."""
    levels = [[f"I{level}_{n}" for n in range(wide)] for level in range(deep)]
    files = {}
    for at, level in enumerate(levels):
        below = levels[at + 1] if at + 1 < deep else []
        for name in level:
            pool = Pool()
            files[name + ".class"] = class_file(pool, name, interfaces=below, flags=PUBLIC | INTERFACE | ABSTRACT)
    pool = Pool()
    files["Box.class"] = class_file(pool, "Box", interfaces=levels[0])
    pool = Pool()
    last = levels[-1][-1]
    call = b"\xb9" + u2(pool.of_interface(last, "absent", "()V")) + b"\1\0"
    text = b"\xbb" + u2(pool.named("Box")) + b"\x59\xc1" + u2(pool.named(last)) + b"\x57" + call + RETURN
    files["Main.class"] = class_file(pool, "Main", [main_method(pool, text)])
    return Case(files, words=words, status=1, line="ending uncaught java/lang/NoSuchMethodError")


# ---- long descriptors and names

def long_class_name():
    """A field and a cast of a class whose name has 65,533 units: the descriptor has 65,535."""
    pool = Pool()
    name = "x" * 65_533
    fields = [member(pool, STATIC, "f", f"L{name};")]
    text = b"\x01\xc0" + u2(pool.named(name)) + b"\xb3" + u2(pool.field("Main", "f", f"L{name};")) + RETURN
    return Case({"Main.class": class_file(pool, "Main", [main_method(pool, text)], fields)})


def long_name_that_is_sought():
    pool = Pool()
    name = "/".join("x" for _ in range(32_767))
    text = b"\xbb" + u2(pool.named(name)) + b"\x57" + RETURN
    return Case({"Main.class": class_file(pool, "Main", [main_method(pool, text)])}, status=1,
                line="ending uncaught java/lang/NoClassDefFoundError")


def bad_descriptor(descriptor):
    pool = Pool()
    fields = [member(pool, STATIC, "f", descriptor)]
    return Case({"Main.class": class_file(pool, "Main", [main_method(pool)], fields)}, status=3,
                line="jfluid: Main.class: BadShape Descriptor")


def many_dimensions():
    return bad_descriptor("[" * 65_534 + "I")


def name_without_an_end():
    return bad_descriptor("L" + "x" * 65_534)


def many_parameters():
    pool = Pool()
    methods = [main_method(pool), member(pool, PUBLIC | ABSTRACT, "m", "(" + "I" * 65_532 + ")V")]
    return Case({"Main.class": class_file(pool, "Main", methods, flags=33 | ABSTRACT)}, status=3,
                line="jfluid: Main.class: BadShape Descriptor")


def long_root():
    """A root of 65,535 units and more, which is no method of the class."""
    pool = Pool()
    made = class_file(pool, "Main", [main_method(pool)])
    return Case({"Main.class": made}, words=["--root", "Main." + "m" * 100_000 + "()V"], status=3, line="jfluid: NoSuchRoot 1")


# ---- switches

def switch_of(op, length):
    """A code of so many bytes that is one switch and two returns; each case goes to one of them."""
    pool = Pool()
    head = b"\x03" + u1(op) + bytes(2)
    if op == 0xAA:
        count = (length - len(head) - 12 - 2) // 4
        body = u4(0) + u4(count - 1)
        rows = lambda to: b"".join(u4(to + n % 2) for n in range(count))
    else:
        count = (length - len(head) - 8 - 2) // 8
        body = u4(count)
        rows = lambda to: b"".join(u4(n) + u4(to + n % 2) for n in range(count))
    size = len(head) + 4 + len(body) + len(rows(0))
    to = size - 1
    text = head + u4(to) + body + rows(to) + RETURN + RETURN
    return pool, text


def switch(op, length, status=0, line="ending returned", words=()):
    pool, text = switch_of(op, length)
    return Case({"Main.class": class_file(pool, "Main", [main_method(pool, text)])}, status=status, line=line, words=words)


def many_switches():
    """A code of 1,600 switches of 40 bytes each, all run under a root."""
    pool = Pool()
    text = b""
    for _ in range(1600):
        start = len(text) + 1
        pad = bytes(3 - start % 4)
        size = 1 + len(pad) + 12 + 16
        text += b"\x03\xaa" + pad + u4(size) + u4(0) + u4(3) + u4(size) * 4
    return Case({"Main.class": class_file(pool, "Main", [main_method(pool, text + RETURN)])}, words=["--root", "Main.main" + MAIN])


# ---- plans and input

def planned(plan, status, line, **more):
    pool = Pool()
    made = class_file(pool, "Main", [main_method(pool)])
    return Case({"Main.class": made, "plan": plan}, words=["--plan", "plan"], status=status, line=line, **more)


def plan_of_empty_lines():
    return planned(b"\n" * 1_048_576, 0, "ending returned")


def plan_of_one_comment():
    return planned(b"#" * 1_048_576, 0, "ending returned")


def plan_of_one_argument():
    return planned(b"arg " + b"x" * (1_048_576 - 4), 0, "ending returned")


def plan_of_arguments():
    return planned(b"".join(b"arg " + b"x" * 4_090 + b"\n" for _ in range(256)), 0, "ending returned")


def plan_of_actions():
    """256 actions on one root, selected and deselected in turn, behind lines of comments up to the greatest length."""
    acts = b"".join(b"at 0 %sselect Main.main%s\n" % (b"de" if n % 2 else b"", MAIN.encode()) for n in range(256))
    return planned(b"#" * (1_048_575 - len(acts)) + b"\n" + acts, 0, "ending returned")


def plan_of_one_action_too_many():
    acts = b"".join(b"at 0 %sselect Main.main%s\n" % (b"de" if n % 2 else b"", MAIN.encode()) for n in range(257))
    return planned(acts, 2, "jfluid: plan: TooMany 257")


def plan_one_byte_too_long():
    return planned(b"\n" * 1_048_577, 2, "jfluid: plan: TooLong")


def reads(given, status=0, line="ending returned", words=()):
    """main reads its input to the end, a byte at a time."""
    pool = Pool()
    text = (b"\xb2" + u2(pool.field("java/lang/System", "in", "Ljava/io/InputStream;"))
            + b"\xb6" + u2(pool.method("java/io/InputStream", "read", "()I")) + b"\x02\xa0" + u2(65_529) + RETURN)
    made = class_file(pool, "Main", [main_method(pool, text)])
    return Case({"Main.class": made}, given=given, status=status, line=line, words=words)


def input_that_is_read():
    return reads(bytes(16_777_216))


def input_that_is_read_under_a_root():
    return reads(bytes(16_777_216), words=["--root", "Main.main" + MAIN])


def input_one_byte_too_long():
    return reads(bytes(16_777_217), 11, "jfluid: input too long")


# ---- deep runs

def recursion(wide, words=(), large=False):
    """A method with so many locals and so many operands calls itself until there is no room for a frame more."""
    pool = Pool()
    call = b"\xb8" + u2(pool.method("Main", "z", "()V")) + RETURN
    methods = [main_method(pool, call), member(pool, STATIC, "z", "()V", [code(pool, call, wide, wide)])]
    return Case({"Main.class": class_file(pool, "Main", methods)}, status=1, words=words, large=large,
                line="ending uncaught java/lang/StackOverflowError")


def deep_arrays():
    """An array of 255 dimensions of one element each is made."""
    pool = Pool()
    text = b"\x04" * 255 + b"\xc5" + u2(pool.named("[" * 255 + "I")) + b"\xff\x57" + RETURN
    return Case({"Main.class": class_file(pool, "Main", [main_method(pool, text, stack=256)])})


def full_heap():
    """Arrays of arrays up to the heap's limit, 67,108,864 slots, and one more."""
    pool = Pool()
    text = b"\x11\x20\x00\x11\x1f\xf0\xc5" + u2(pool.named("[[I")) + b"\x02\x57\xa7" + u2(65_525) + RETURN
    made = class_file(pool, "Main", [main_method(pool, text)])
    return Case({"Main.class": made, "plan": b"heap 67108864\n"}, words=["--plan", "plan"], status=1,
                line="ending uncaught java/lang/OutOfMemoryError")


CASES = {
    "zeros_alone": zeros_alone,
    "zeros_behind_a_head": zeros_behind_a_head,
    "one_byte_too_long": one_byte_too_long,
    "one_attribute_of_zeros": one_attribute_of_zeros,
    "empty_texts": empty_texts,
    "texts_of_zeros": texts_of_zeros,
    "pool_one_too_full": pool_one_too_full,
    "empty_fields": empty_fields,
    "empty_methods": empty_methods,
    "each_method_has_code": each_method_has_code,
    "thirty_thousand_methods": thirty_thousand_methods,
    "thirty_thousand_methods_with_a_root": thirty_thousand_methods_with_a_root,
    "empty_attributes_of_a_class": lambda: Case({"Main.class": empty_attributes("class")}),
    "empty_attributes_of_methods": lambda: Case({"Main.class": empty_attributes("method")}),
    "empty_attributes_of_codes": lambda: Case({"Main.class": empty_attributes("code")}),
    "codes_of_nops": codes_of_nops,
    "codes_of_nops_with_a_root": codes_of_nops_with_a_root,
    "handlers": handlers,
    "handlers_that_are_searched": handlers_that_are_searched,
    "empty_frames": empty_frames,
    "line_tables": line_tables,
    "many_interfaces": many_interfaces,
    "thousand_files": thousand_files,
    "one_file_too_many": one_file_too_many,
    "one_file_thousand_times": one_file_thousand_times,
    "sixteen_large_files": sixteen_large_files,
    "superclasses": superclasses,
    "superclasses_with_a_root": superclasses_with_a_root,
    "circle_of_superclasses": circle_of_superclasses,
    "interfaces_2_wide_26_deep": lambda: interfaces(2, 26),
    "interfaces_26_wide_26_deep": lambda: interfaces(26, 26),
    "interfaces_26_wide_26_deep_with_a_root": lambda: interfaces(26, 26, ["--root", "Main.main" + MAIN]),
    "long_class_name": long_class_name,
    "long_name_that_is_sought": long_name_that_is_sought,
    "many_dimensions": many_dimensions,
    "name_without_an_end": name_without_an_end,
    "many_parameters": many_parameters,
    "long_root": long_root,
    "table_switch": lambda: switch(0xAA, 65_510),
    "table_switch_with_a_root": lambda: switch(0xAA, 65_500, words=["--root", "Main.main" + MAIN]),
    "table_switch_of_65535_bytes": lambda: switch(0xAA, 65_535, 3, "jfluid: Main.class: NotProfilable 0 Length"),
    "lookup_switch": lambda: switch(0xAB, 65_500, words=["--root", "Main.main" + MAIN]),
    "lookup_switch_of_65535_bytes": lambda: switch(0xAB, 65_535, 3, "jfluid: Main.class: NotProfilable 0 Length"),
    "many_switches": many_switches,
    "plan_of_empty_lines": plan_of_empty_lines,
    "plan_of_one_comment": plan_of_one_comment,
    "plan_of_one_argument": plan_of_one_argument,
    "plan_of_arguments": plan_of_arguments,
    "plan_of_actions": plan_of_actions,
    "plan_of_one_action_too_many": plan_of_one_action_too_many,
    "plan_one_byte_too_long": plan_one_byte_too_long,
    "input_that_is_read": input_that_is_read,
    "input_that_is_read_under_a_root": input_that_is_read_under_a_root,
    "input_one_byte_too_long": input_one_byte_too_long,
    "recursion": lambda: recursion(4),
    "recursion_with_a_root": lambda: recursion(4, ["--root", "Main.z()V"]),
    "recursion_of_wide_frames": lambda: recursion(30_000),
    "recursion_of_the_widest_frames": lambda: recursion(65_534, large=True),
    "recursion_of_the_widest_frames_with_a_root": lambda: recursion(65_534, ["--root", "Main.z()V"], large=True),
    "deep_arrays": deep_arrays,
    "full_heap": full_heap,
}


def within_limits():
    resource.setrlimit(resource.RLIMIT_STACK, (STACK, STACK))
    resource.setrlimit(resource.RLIMIT_AS, (SPACE, SPACE))


def run(program, name, folder):
    case = CASES[name]()
    for file, bytes_ in case.files.items():
        with open(os.path.join(folder, file), "wb") as out:
            out.write(bytes_)
    size = sum(map(len, case.files.values()))
    begun = time.monotonic()
    with tempfile.TemporaryFile() as given, tempfile.TemporaryFile() as out, tempfile.TemporaryFile() as report:
        given.write(case.given)
        given.seek(0)
        ran = subprocess.Popen([program, *case.words], cwd=folder, stdin=given, stdout=out, stderr=report, preexec_fn=within_limits)
        deadline = begun + SECONDS
        while True:
            pid, status, used = os.wait4(ran.pid, os.WNOHANG)
            if pid:
                break
            if time.monotonic() > deadline:
                ran.kill()
            time.sleep(0.005)
        seconds = time.monotonic() - begun
        report.seek(0)
        line = report.readline(200).decode(errors="replace").rstrip("\n")
    status = os.waitstatus_to_exitcode(status)
    right = status == case.status and line.startswith(case.line)
    right = right or (case.large and status == 9 and line == "jfluid: no memory")
    print(f"{'ok   ' if right else 'WRONG'} {name}: {size} bytes in {len(case.files)} files, status {status}, "
          f"{used.ru_utime + used.ru_stime:.1f} s of {seconds:.1f}, {used.ru_maxrss // 1024} MiB: {line[:80]}", flush=True)
    return right


def main():
    words = argparse.ArgumentParser()
    words.add_argument("program")
    words.add_argument("--keep", help="a folder for the files of each case")
    words.add_argument("cases", nargs="*", default=list(CASES))
    asked, failed = words.parse_args(), 0
    top = asked.keep or tempfile.mkdtemp()
    for name in asked.cases:
        folder = os.path.join(top, name)
        os.makedirs(folder)
        failed += not run(os.path.realpath(asked.program), name, folder)
        if not asked.keep:
            shutil.rmtree(folder)
    sys.exit(failed > 0)


if __name__ == "__main__":
    main()
