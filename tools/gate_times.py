#!/usr/bin/env python3
"""Prints how many processor seconds the gate spends on each crate.

The columns: its proof, the checks that its must-fail edits begin and end with, the edits, its tests, its build as a program.
It runs `rt ci --anew` and samples its provers in /proc, so Linux alone; each number may be 0.3 s short for each process, and
other work on the machine stretches them all. It reads nothing that rt keeps and changes nothing.

Status: that of `rt ci`; 0 where a gate is watched that runs already.
"""
import os
import re
import subprocess
import sys
import time

import asking

TOP = os.path.join(os.path.dirname(os.path.abspath(__file__)), "..")
TICK = os.sysconf("SC_CLK_TCK")
KINDS = ["proof", "ends", "edits", "tests", "build"]


def stat_of(pid):
    """The parent, the start, and the processor seconds of a process and of its children that ended."""
    with open("/proc/%d/stat" % pid, encoding="utf-8", errors="replace") as opened:
        words = opened.read().rpartition(")")[2].split()
    return int(words[1]), int(words[19]), sum(int(word) for word in words[11:15]) / TICK


def kind_of(words):
    """The crate and the kind of a prover's run, or None. An edit's kind is its number, by the order of the files' names."""
    if len(words) < 3 or os.path.basename(words[0]) != "rattle" or "--crate-name" not in words:
        return None
    crate = words[words.index("--crate-name") + 1]
    if "--test" in words:
        return crate, "tests"
    if "--incremental" in words:
        last = os.path.basename(words[words.index("--incremental") + 1])
        return crate, int(last) if last.isdigit() else "ends"
    return crate, "build" if "--crate-checked" in words else "proof"


def below(top):
    """The processes that descend from this one, with their parents, starts and seconds."""
    stats = {}
    for name in filter(str.isdigit, os.listdir("/proc")):
        try:
            stats[int(name)] = stat_of(int(name))
        except (OSError, IndexError, ValueError):
            pass
    found, more = {}, [top]
    while more:
        parent = more.pop()
        children = [pid for pid, stat in stats.items() if stat[0] == parent and pid not in found]
        found.update((pid, stats[pid]) for pid in children)
        more += children
    return found


class Samples:
    """The seconds of each prover that was seen. A prover's children count with it."""

    def __init__(self):
        self.kinds, self.seconds = {}, {}

    def take(self, top):
        now = below(top)
        for pid, (parent, start, spent) in now.items():
            key = pid, start
            if self.kinds.get(key) is None:
                try:
                    with open("/proc/%d/cmdline" % pid, "rb") as opened:
                        self.kinds[key] = kind_of(opened.read().decode("utf-8", "replace").split("\0"))
                except OSError:
                    continue
            over = now.get(parent)
            if self.kinds[key] and not (over and self.kinds.get((parent, over[1])) == self.kinds[key]):
                self.seconds[key] = spent

    def by_crate(self):
        sums, edits = {}, []
        for key, spent in self.seconds.items():
            crate, kind = self.kinds[key]
            if isinstance(kind, int):
                edits.append((spent, crate, kind))
                kind = "edits"
            row = sums.setdefault(crate, dict.fromkeys(KINDS, 0.0))
            row[kind] += spent
        return sums, sorted(edits, reverse=True)


def edit_name(crate, number):
    folder = os.path.join(TOP, "crates", crate, "must-fail")
    names = sorted(name for name in os.listdir(folder) if name.endswith(".edit")) if os.path.isdir(folder) else []
    return names[number] if number < len(names) else "edit %d" % number


def show(samples, minutes, is_each):
    sums, edits = samples.by_crate()
    print("%-20s" % "crate" + "".join("%9s" % kind for kind in [*KINDS, "all"]))
    for crate, row in sorted(sums.items(), key=lambda pair: -sum(pair[1].values())):
        print("%-20s" % crate + "".join("%9.1f" % spent for spent in [*row.values(), sum(row.values())]))
    totals = [sum(row[kind] for row in sums.values()) for kind in KINDS]
    print("%-20s" % "all" + "".join("%9.1f" % spent for spent in [*totals, sum(totals)]))
    print("%.1f processor minutes in %.1f minutes" % (sum(totals) / 60, minutes))
    for spent, crate, number in edits if is_each else []:
        print("%9.1f  %s/%s" % (spent, crate, edit_name(crate, number)))


def main():
    words = asking.asker(__doc__)
    words.add_argument("names", metavar="NAME", nargs="*", help="the crates to prove, with those below them: all where none is given")
    words.add_argument("--edits", action="store_true", help="lists each edit too, dearest first")
    words.add_argument("--pid", type=int, help="watches a gate that runs already, the process of `rt ci`, to its end")
    given = words.parse_args()
    begun, samples = time.time(), Samples()
    # What rt prints goes to standard error, so that the table can be kept.
    gate = None if given.pid else subprocess.Popen(["rt", "ci", "--anew", *given.names], cwd=TOP, stdout=sys.stderr, stdin=subprocess.DEVNULL)
    while os.path.isdir("/proc/%d" % given.pid) if gate is None else gate.poll() is None:
        samples.take(given.pid or gate.pid)
        time.sleep(0.3)
    show(samples, (time.time() - begun) / 60, given.edits)
    return gate.returncode if gate else 0


if __name__ == "__main__":
    raise SystemExit(main())
