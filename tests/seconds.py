#!/usr/bin/env python3
"""Processor seconds of the gate's steps, and of each crate's check in them.

  python3 tests/seconds.py FILE NAME COMMAND..    runs a command as the step NAME, and adds what it took to FILE
  python3 tests/seconds.py --table FILE           prints what FILE has

The seconds of a step are those of all its processes. rt tells how long a check took by the clock, which says little where several run; so the
processes `rattle .. --crate-name NAME` below the command are looked up in /proc every half second, and the last figure of each counts for its
crate. The exit status is that of the command.
"""

import collections
import os
import signal
import subprocess
import sys
import threading

EVERY = 0.5
TICKS = os.sysconf("SC_CLK_TCK")


def processes():
    """The processes that there are: {id: (parent, start, ticks)}."""
    found = {}
    for name in filter(str.isdigit, os.listdir("/proc")):
        try:
            with open("/proc/%s/stat" % name) as file:
                fields = file.read().rpartition(")")[2].split()
        except OSError:
            continue
        found[int(name)] = int(fields[1]), fields[19], int(fields[11]) + int(fields[12])
    return found


def crate_of(process):
    """The crate that a process checks, or None."""
    try:
        with open("/proc/%d/cmdline" % process, "rb") as file:
            words = file.read().decode(errors="replace").split("\0")
    except OSError:
        return None
    named = words.index("--crate-name") + 1 if "--crate-name" in words else 0
    return words[named] if named and os.path.basename(words[0]) == "rattle" else None


class Watch(threading.Thread):
    """Keeps what the checks below a process have taken, until it is told to end."""

    def __init__(self, top):
        super().__init__(daemon=True)
        self.top, self.over, self.taken = top, threading.Event(), {}

    def run(self):
        while not self.over.wait(EVERY):
            now = processes()
            for process, (_, start, ticks) in now.items():
                if self.below(process, now) and crate_of(process):
                    self.taken[process, start] = crate_of(process), ticks

    def below(self, process, now):
        while process in now and process != self.top:
            process = now[process][0]
        return process == self.top

    def crates(self):
        sums = collections.Counter()
        for crate, ticks in self.taken.values():
            sums[crate] += ticks / TICKS
        return sums


def run(path, name, command):
    process = subprocess.Popen(command)
    for each in (signal.SIGTERM, signal.SIGINT):
        signal.signal(each, lambda *_: process.terminate())
    watch = Watch(process.pid)
    watch.start()
    _, status, used = os.wait4(process.pid, 0)
    watch.over.set()
    watch.join()
    with open(path, "a", encoding="utf-8") as file:
        file.write("step\t%s\t%.1f\n" % (name, used.ru_utime + used.ru_stime))
        file.writelines("crate\t%s\t%.1f\t%s\n" % (name, seconds, crate) for crate, seconds in watch.crates().items())
    return os.waitstatus_to_exitcode(status) if os.WIFEXITED(status) else 1


def table(path):
    steps, crates, names = collections.Counter(), collections.defaultdict(collections.Counter), []
    with open(path, encoding="utf-8") as lines:
        for kind, name, seconds, *crate in (line.rstrip("\n").split("\t") for line in lines):
            if kind == "step":
                steps[name] += float(seconds)
                continue
            crates[crate[0]][name] += float(seconds)
            names += [name] if name not in names else []
    print("Processor seconds\n%-16s" % "crate" + "".join("%16s" % name for name in names))
    for crate, taken in sorted(crates.items(), key=lambda pair: -sum(pair[1].values())):
        print("%-16s" % crate + "".join("%16s" % (round(taken[name]) if name in taken else "-") for name in names))
    print("%-16s" % "step")
    for name, seconds in steps.items():
        print("%-32s%16d" % (name, round(seconds)))
    print("%-32s%16d" % ("all", round(sum(steps.values()))))


def main(words):
    if len(words) == 2 and words[0] == "--table":
        return table(words[1])
    if len(words) > 2:
        return run(words[0], words[1], words[2:])
    sys.exit(__doc__)


if __name__ == "__main__":
    sys.exit(main(sys.argv[1:]))
