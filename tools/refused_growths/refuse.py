"""Runs jfluid with each of its allocations refused in turn, and looks at what it answers.

refuse.py JFLUID [--jobs N] [ROW..]   JFLUID is the built program, a ROW a folder of crates/worked_rows/data whose words and
files are given to it on the disk; without one the four rows of ROWS.

For each number K, from 1 up to the first that refuses nothing, the row runs twice: with the allocation of that number
refused, and with it and each behind it refused. Each run has to answer status 9 with `jfluid: no memory` alone on the report,
a front of the whole output, and a front of the whole images, or all of the answer that comes where nothing is refused: a
growth that is refused may be made good by a smaller one. What answers otherwise is printed, and the status is then 1.
"""
import argparse
import concurrent.futures
import os
import shutil
import subprocess
import sys
import tempfile

HERE = os.path.dirname(os.path.realpath(__file__))
DATA = os.path.join(HERE, "..", "..", "crates", "worked_rows", "data")
ROWS = ("images/root_f", "worked/override_in_a_subclass", "worked/recursion_deselected", "failing/images_2")
LINE = b"jfluid: no memory\n"


def read(*path):
    with open(os.path.join(DATA, *path), "rb") as file:
        return file.read()


def lay_out(row, folder):
    """Puts the files of a row into a folder, and gives its words and its input. What fails in the row is left out."""
    words, given = read(row, "args").decode().splitlines(), b""
    for line in read(row, "given").decode().splitlines():
        kind, rest = line.split(" ", 1)
        if kind == "file":
            name, path = rest.split(" ")
            shutil.copy(os.path.join(DATA, path), os.path.join(folder, name))
        elif kind == "input":
            given = read(rest)
        elif kind != "fails":
            sys.exit(f"{row}: {line}: not understood")
    return words, given


class Row:
    def __init__(self, program, shim, name, folder):
        self.program, self.shim, self.name, self.folder = program, shim, name, folder
        self.words, self.input = lay_out(name, folder)

    def run(self, **refused):
        """What is answered: the status, the output, the report, the images; and how many allocations were asked for."""
        with tempfile.TemporaryDirectory(dir=self.folder) as at:
            for name in os.listdir(self.folder):
                if os.path.isfile(os.path.join(self.folder, name)):
                    os.symlink(os.path.join(self.folder, name), os.path.join(at, name))
            count = os.path.join(at, "count")
            env = {"LD_PRELOAD": self.shim, "REFUSE_COUNT": count, **{k: str(n) for k, n in refused.items()}}
            ran = subprocess.run([self.program, *self.words], cwd=at, env=env, input=self.input, capture_output=True, timeout=60)
            images = os.path.join(at, "jfluid.images")
            put = open(images, "rb").read() if os.path.exists(images) else b""
            return (ran.returncode, ran.stdout, ran.stderr, put), int(open(count).read())

    def judge(self, whole, answer):
        """How an answer is right, or None."""
        if answer == whole:
            return "made good"
        status, output, report, images = answer
        if status == 9 and report == LINE and whole[1].startswith(output) and whole[3].startswith(images):
            return "status 9"
        return None

    def refuse_each(self, kind, whole, pool):
        """Every number, up to the first of which a run asks for fewer allocations: how often each right answer came."""
        seen, wrong, number = {"status 9": 0, "made good": 0}, 0, 1
        while True:
            batch = range(number, number + 64)
            for at, (answer, count) in zip(batch, pool.map(lambda k: self.run(**{kind: k}), batch)):
                if count < at:
                    return at - 1, seen, wrong
                right = self.judge(whole, answer)
                if right is None:
                    wrong += 1
                    print(f"{self.name}: {kind}={at}: {answer}")
                else:
                    seen[right] += 1
            number += 64


def main():
    words = argparse.ArgumentParser()
    words.add_argument("program")
    words.add_argument("--jobs", type=int, default=1)
    words.add_argument("rows", nargs="*", default=ROWS)
    asked, failed = words.parse_args(), 0
    with tempfile.TemporaryDirectory() as top, concurrent.futures.ThreadPoolExecutor(asked.jobs) as pool:
        shim = os.path.join(top, "refuse.so")
        subprocess.run(["cc", "-O2", "-shared", "-fPIC", "-o", shim, os.path.join(HERE, "refuse.c")], check=True)
        for at, name in enumerate(asked.rows):
            folder = os.path.join(top, str(at))
            os.mkdir(folder)
            row = Row(os.path.realpath(asked.program), shim, name, folder)
            whole, count = row.run()
            print(f"{name}: status {whole[0]}, {len(whole[1])} bytes of output, {len(whole[3])} of images, {count} allocations")
            for kind, said in (("REFUSE", "one alone"), ("REFUSE_FROM", "all from it on")):
                numbers, seen, wrong = row.refuse_each(kind, whole, pool)
                failed += wrong
                print(f"  {said}: {numbers} numbers, {seen['status 9']} with status 9, {seen['made good']} made good, {wrong} wrong")
    sys.exit(failed > 0)


if __name__ == "__main__":
    main()
