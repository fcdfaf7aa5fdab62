#!/usr/bin/env python3
"""The repository's test command: `rt ci` with a check for each processor, and at its end a table of what took how long.

rt reckons more memory for a check than it takes, so on its own it leaves processors idle. RT_JOBS has it start as many
checks as there are processors. Everything else is rt's own: what is proved and tried, the status, and the last line.

    python3 tools/gate/gate.py          # at the top of a clone
"""
import ctypes
import os
import signal
import subprocess
import sys
import threading
import time

# What one check takes at most, as seen in docs/PROVING.md, "The gate".
BYTES_OF_A_CHECK = 3_000_000_000
SECONDS_BETWEEN_SAMPLES = 1
TICKS = os.sysconf("SC_CLK_TCK")
KINDS = ("proof", "tests", "edits")
DIES_WITH_PARENT = 1  # PR_SET_PDEATHSIG


def free_bytes():
    """Returns the memory that is free, swap left out."""
    with open("/proc/meminfo", encoding="ascii") as lines:
        return next(int(it.split()[1]) * 1024 for it in lines if it.startswith("MemAvailable:"))


def checks_at_once():
    """Returns how many checks to run side by side: one a processor, and no more than the free memory holds."""
    return max(1, min(len(os.sched_getaffinity(0)), free_bytes() // BYTES_OF_A_CHECK))


class Sampler(threading.Thread):
    """Looks at the run's checkers every second, and keeps the processor's seconds of each."""

    def __init__(self, session):
        super().__init__(daemon=True)
        self.session, self.begun, self.is_over = session, time.time(), threading.Event()
        self.seconds, self.spans = {}, {}

    def run(self):
        while not self.is_over.wait(SECONDS_BETWEEN_SAMPLES):
            for process in filter(str.isdigit, os.listdir("/proc")):
                try:
                    self.look(process)
                except (OSError, ValueError, IndexError):
                    # It ended between two reads, or is no checker.
                    continue

    def look(self, process):
        """Notes what a process of the run took so far, where it is a checker."""
        with open(f"/proc/{process}/stat", encoding="utf-8", errors="replace") as it:
            fields = it.read().rpartition(")")[2].split()
        if int(fields[3]) != self.session:
            return
        with open(f"/proc/{process}/cmdline", encoding="utf-8", errors="replace") as it:
            words = it.read().split("\0")
        if not words[0].endswith("bin/rattle"):
            return
        crate, now = words[words.index("--crate-name") + 1], time.time() - self.begun
        # An edit is tried in a copy of its crate.
        is_edit = "/rt-edit" in os.readlink(f"/proc/{process}/cwd")
        kind = "edits" if is_edit else "tests" if "--test" in words else "proof"
        self.seconds[process, fields[19]] = crate, kind, (int(fields[11]) + int(fields[12])) / TICKS
        first, _ = self.spans.get((crate, kind), (now, now))
        self.spans[crate, kind] = first, now

    def table(self):
        """Returns the lines of the table, in the order in which the crates were begun."""
        sums = {}
        for crate, kind, seconds in self.seconds.values():
            sums[crate, kind] = sums.get((crate, kind), 0) + seconds
        crates = sorted({crate for crate, _ in sums}, key=lambda it: self.spans.get((it, "proof"), (1e9, 0))[0])
        rows = ["crate                 begun  ended   proof   tests   edits   (minutes by the clock; seconds of a processor)"]
        for crate in crates:
            spans = [self.spans[crate, kind] for kind in KINDS if (crate, kind) in self.spans]
            begun, ended = min(it for it, _ in spans) / 60, max(it for _, it in spans) / 60
            cells = [f"{sums[crate, kind]:8.0f}" if (crate, kind) in sums else 8 * " " for kind in KINDS]
            rows.append(f"{crate:<20}{begun:7.1f}{ended:7.1f}{''.join(cells)}")
        whole = [sum(seconds for (_, it), seconds in sums.items() if it == kind) for kind in KINDS]
        clock = (time.time() - self.begun) / 60
        rows.append(f"{'together':<20}{0:7.1f}{clock:7.1f}{''.join(f'{it:8.0f}' for it in whole)}")
        return rows


def begin():
    """Starts rt ci in a session of its own, which ends with this process."""
    jobs = os.environ.get("RT_JOBS") or str(checks_at_once())
    # The child must not look up a name between fork and exec.
    prctl = ctypes.CDLL(None).prctl
    return subprocess.Popen(
        ["rt", "ci"],
        env={**os.environ, "RT_JOBS": jobs},
        stdout=subprocess.PIPE,
        text=True,
        errors="replace",
        start_new_session=True,
        preexec_fn=lambda: prctl(DIES_WITH_PARENT, signal.SIGTERM),
    )


def main():
    run = begin()

    def stop(number, _):
        # rt's own guard ends the checkers when rt ends.
        os.killpg(run.pid, signal.SIGTERM)
        sys.exit(128 + number)

    for it in (signal.SIGINT, signal.SIGTERM, signal.SIGHUP):
        signal.signal(it, stop)
    sampler = Sampler(run.pid)
    sampler.start()
    last = ""
    for line in run.stdout:
        print(last, end="", flush=True)
        last = line
    status = run.wait()
    sampler.is_over.set()
    if sampler.seconds:
        print("\n".join(sampler.table()))
    print(last, end="", flush=True)
    return status if status >= 0 else 128 - status


if __name__ == "__main__":
    sys.exit(main())
