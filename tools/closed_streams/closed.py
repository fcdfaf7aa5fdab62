"""Runs the built programs with each choice of the three standard streams closed at the start, and looks at what they do.

closed.py FOLDER   has the built programs by their names (the file that `rt run` leaves in a crate's out/): jfluid, class_copy,
class_image, map_rows, worked_rows and played_rows, those of them that are there.

Each runs with its crate's words in a copy of its crate's data/, jfluid with P1 under the root P1.f, with and without images,
so 8 times each. A stream that was closed must be one of which each take or put fails, and no file's:

- no file of the folder is changed, and none is new but jfluid.images, which is as with all streams open where it is made;
- what is on an output that is open is what comes with all streams open, or, of jfluid, the line of the fault;
- jfluid answers 5 without its input, else 6 without its output, else 8 without its report, and images where it is 8; another
  program answers as with all streams open, unless it puts to one that is closed, and then not 0.

What is otherwise is printed, and the status is then 1.
"""
import itertools
import os
import shutil
import subprocess
import sys
import tempfile

CRATES = os.path.join(os.path.dirname(os.path.realpath(__file__)), "..", "..", "crates")
P1 = ["--main", "P1", "--root", "P1.f(I)I"]
OTHERS = ("class_copy", "class_image", "map_rows", "worked_rows", "played_rows")


def words_of(crate):
    path = os.path.join(CRATES, crate, "args")
    if not os.path.exists(path):
        return []
    with open(path, encoding="utf-8") as file:
        return file.read().split("\n")[:-1]


def contents(folder):
    found = {}
    for top, _, names in os.walk(folder):
        for name in names:
            path = os.path.join(top, name)
            with open(path, "rb") as file:
                found[os.path.relpath(path, folder)] = file.read()
    return found


def run(program, words, data, closed):
    """What a run answers: the status, what is on the two outputs, and the files behind it that are new or changed."""
    with tempfile.TemporaryDirectory() as top:
        folder = os.path.join(top, "run")
        shutil.copytree(data, folder)
        before = contents(folder)

        def close():
            for number in closed:
                os.close(number)

        ran = subprocess.run([program, *words], cwd=folder, input=b"", capture_output=True, preexec_fn=close, timeout=600)
        after = contents(folder)
    changed = {name: after.get(name) for name in before.keys() | after.keys() if before.get(name) != after.get(name)}
    return ran.returncode, ran.stdout, ran.stderr, changed


def tell_jfluid(whole, closed, answer):
    """What jfluid answers otherwise than it has to."""
    status, out, report, files = answer
    line = b""
    wanted, images, put = 0, whole[3], whole[1]
    if 0 in closed:
        wanted, images, put, line = 5, {}, b"", b"jfluid: input failed\n"
    elif 1 in closed:
        wanted, images, line = 6, {}, b"jfluid: output failed\n"
    elif 2 in closed:
        wanted = 8
    else:
        line = whole[2]
    if 1 in closed:
        put = b""
    if 2 in closed:
        line = b""
    return (status, out, report, files) == (wanted, put, line, images)


def tell_reports(whole, closed, answer):
    """The report stands behind the output, on the same stream."""
    if 0 in closed:
        return answer == (5, b"" if 1 in closed else b"jfluid: input failed\n", b"", {})
    return answer == ((6, b"", b"", {}) if 1 in closed else whole)


def tell_other(whole, closed, answer):
    status, out, report, files = answer
    fine = files == whole[3] == {}
    lost = (1 in closed and whole[1]) or (2 in closed and whole[2])
    fine = fine and (status != 0 if lost else status == whole[0])
    if 1 not in closed and 2 not in closed:
        fine = fine and (out, report) == (whole[1], whole[2])
    return fine


def tries(folder):
    jfluid = os.path.join(folder, "jfluid")
    if os.path.exists(jfluid):
        data = os.path.join(CRATES, "jfluid", "data")
        yield "jfluid", jfluid, [*P1, "P1.class"], data, tell_jfluid
        yield "jfluid --images", jfluid, [*P1, "--images", "P1.class"], data, tell_jfluid
    for name in OTHERS:
        program = os.path.join(folder, name)
        if os.path.exists(program):
            data = os.path.join(CRATES, name, "data")
            yield name, program, words_of(name), data, tell_reports if name == "reports_on_output" else tell_other


def main():
    folder = os.path.realpath(sys.argv[1])
    wrong = 0
    for name, program, words, data, fits in tries(folder):
        whole = run(program, words, data, ())
        for size in range(4):
            for closed in itertools.combinations((0, 1, 2), size):
                answer = run(program, words, data, closed)
                if not fits(whole, closed, answer):
                    wrong += 1
                    print(f"{name} without {closed}: status {answer[0]}, {len(answer[1])} bytes of output, "
                          f"{answer[2][-200:]!r} on the report, files {sorted(answer[3])}")
        print(f"{name}: status {whole[0]} with all streams, {len(whole[1])} bytes of output, files {sorted(whole[3])}")
    return 1 if wrong else 0


sys.exit(main())
