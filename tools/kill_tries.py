#!/usr/bin/env python3
"""Kills the program at random moments of a run on real folders, and checks what it leaves.

Each try begins with a folder that was run once, to which messages were added. The program is started on it and killed. Its
files must then restore to the checkpoint before or to the next one, with just that checkpoint's counts, and the output must
have what it had, or that followed by all that the added messages send. Run again, the program must come to the input's end and
print the report of that. Where the changelog was ahead of its checkpoint, it must first have taken the records behind the
checkpoint's count back: each of their keys, in order, with its value at the checkpoint.

A killed process leaves what it wrote, so this is no test of a loss of power. It needs the built program, as `rt run` leaves it in
crates/samza_run/out/, and about half a minute for 200 tries. Status: 0 where each try went well; 1 with the first that didn't.
"""
import collections
import os
import shutil
import subprocess
import tempfile
import time

import asking
import topicfile

CONFIGURATION = os.path.join(os.path.dirname(os.path.abspath(__file__)), "..", "examples", "word_count", "job.properties")
BEFORE, ADDED = 3000, 3000


def messages(count):
    words = topicfile.words_of(7)
    return [(b"%08d" % i, b" ".join(next(words) for _ in range(4))) for i in range(count)]


def counted(records):
    """The store and the output that the word count makes of messages."""
    store, sent = collections.Counter(), []
    for _, value in records:
        for word in value.split(b" "):
            store[word] += 1
            sent.append((word, b"%d" % store[word]))
    return {word: b"%d" % count for word, count in store.items()}, sent


def log_of(path):
    if not os.path.exists(path):
        return []
    with open(path, "rb") as file:
        data = file.read()
    return [record for _, records in topicfile.batches(data) for record in records]


def folded(records):
    store = {}
    for key, value in records:
        if value is None:
            store.pop(key, None)
        else:
            store[key] = value
    return store


def run(program, folder):
    """The status of a whole run, and what it printed on both streams."""
    done = subprocess.run([program, "run", folder], capture_output=True)
    return done.returncode, done.stdout, done.stderr


def report(checkpoint, new, end, store, sent):
    lines = [
        "container 0 tasks 1",
        f"Partition 0 checkpoint {checkpoint} new {new}",
        f"  input kafka.lines 0 next {end} end {end}",
        f"  store counts keys {len(store)}",
        f"  output kafka.totals sent {sent}",
        f"total new {new}",
    ]
    return "".join(line + "\n" for line in lines).encode()


class Tries:
    def __init__(self, program, place):
        self.program, self.place = program, place
        self.all = messages(BEFORE + ADDED)
        self.stores = {1: counted(self.all[:BEFORE])[0], 2: counted(self.all)[0]}
        self.sent = counted(self.all)[1]
        self.base = os.path.join(place, "base")
        lines = os.path.join(self.base, "streams", "kafka", "lines", "0.log")
        os.makedirs(os.path.dirname(lines))
        shutil.copy(CONFIGURATION, self.base)
        topicfile.write_file(lines, self.all[:BEFORE])
        first = report(1, BEFORE, BEFORE, self.stores[1], 4 * BEFORE)
        assert run(program, self.base) == (0, first, b""), "the first run"
        topicfile.write_file(lines, self.all)

    def restored(self, folder):
        """The last checkpoint's number, its changelog, and how many of its records the checkpoint counts."""
        task = os.path.join(folder, "tasks", "0")
        number, mark = topicfile.checkpoints(os.path.join(task, "0.log"))[-1]
        count = mark["stores"][0][1]
        changes = log_of(os.path.join(task, "1.log"))
        assert number in self.stores, f"checkpoint {number}"
        assert mark["inputs"] == [("kafka.lines", 0, BEFORE if number == 1 else BEFORE + ADDED)], mark
        assert folded(changes[:count]) == self.stores[number], "the store isn't its checkpoint's"
        sent = log_of(os.path.join(task, "16.log"))
        assert sent in (self.sent[: 4 * BEFORE], self.sent), f"the output has {len(sent)} records"
        assert number == 1 or sent == self.sent, "the output lacks what the checkpoint covers"
        return number, changes, count

    def one(self, delay):
        folder = os.path.join(self.place, "try")
        shutil.rmtree(folder, ignore_errors=True)
        shutil.copytree(self.base, folder)
        process = subprocess.Popen([self.program, "run", folder], stdout=subprocess.DEVNULL, stderr=subprocess.DEVNULL)
        time.sleep(delay)
        process.kill()
        process.wait()
        number, changes, count = self.restored(folder)
        status, out, err = run(self.program, folder)
        assert status == 0, f"status {status} after checkpoint {number}"
        left = BEFORE + ADDED - BEFORE * number
        assert (out, err) == (report(number + 1, left, BEFORE + ADDED, self.stores[2], 4 * left), b""), (out, err)
        last, mark = topicfile.checkpoints(os.path.join(folder, "tasks", "0", "0.log"))[-1]
        assert last == number + 1 and mark["inputs"][0][2] == BEFORE + ADDED, mark
        tail = changes[count:]
        reverted = changes + [(key, self.stores[number].get(key)) for key in sorted({key for key, _ in tail})]
        behind = log_of(os.path.join(folder, "tasks", "0", "1.log"))
        assert behind[: len(reverted)] == reverted, "the changelog's tail isn't taken back"
        assert mark["stores"][0][1] == len(behind), "the checkpoint doesn't count the changelog"
        assert folded(behind) == self.stores[2], "the store behind the last run"
        taken = ", with a tail taken back" if tail else ""
        return f"went on behind checkpoint {number}{taken}"


def main():
    program, tries, draw = asking.ask_tries(__doc__, 200, "moments")
    with tempfile.TemporaryDirectory() as place:
        all_tries = Tries(program, place)
        shutil.copytree(all_tries.base, os.path.join(place, "whole"))
        begun = time.time()
        second = report(2, ADDED, BEFORE + ADDED, all_tries.stores[2], 4 * ADDED)
        assert run(program, os.path.join(place, "whole")) == (0, second, b""), "a whole second run"
        whole = time.time() - begun
        # half of the moments lie towards the run's end, where it commits
        seen = collections.Counter(all_tries.one(draw.uniform(0.7 * (n % 2), 1.1) * whole) for n in range(tries))
    for outcome, count in sorted(seen.items()):
        print(f"{count} tries {outcome}")


if __name__ == "__main__":
    main()
