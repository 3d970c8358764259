#!/usr/bin/env python3
"""Changes the bytes of an input file at random, and holds against each other what topicfile.py and the program make of it.

Of a damaged file both must name the same byte, and of any other one the same number of records. Appending to a damaged file must
be refused and leave it byte for byte; to any other one it must put the record behind those that were there. Last, lines outside
the limits must be refused by their numbers, with nothing written.

It needs the built program, as `rt run` leaves it in crates/samza_run/out/, and about a minute for 1,000 tries. Status: 0 where
each try went well; 1 with the first that didn't.
"""
import collections
import os
import re
import shutil
import subprocess
import tempfile

import asking
import topicfile

CONFIGURATION = os.path.join(os.path.dirname(os.path.abspath(__file__)), "..", "examples", "word_count", "job.properties")
ONE_MORE = [(b"", b"one more")]


def read(path):
    with open(path, "rb") as file:
        return file.read()


def write(path, data):
    with open(path, "wb") as file:
        file.write(data)


def whole_files(path):
    """A file of two frames, and one whose first frame is full."""
    topicfile.write_file(path, [(b"k", b"ab c"), (b"", b"")])
    topicfile.append_file(path, [(b"", b"xyz")])
    small = read(path)
    topicfile.write_file(path, [(b"k%d" % i, b"a b") for i in range(502)])
    return small, read(path)


def changed(draw, data):
    data = bytearray(data)
    for _ in range(draw.randrange(1, 3)):
        at, kind = draw.choice([draw.randrange(len(data)), draw.randrange(13)]) % len(data), draw.randrange(4)
        if kind == 0:
            data[at] = draw.choice([0, 1, 0xFF, 0x4F, 0x43, draw.randrange(256)])
        elif kind == 1:
            data[at:at] = bytes([draw.randrange(256)])
        elif kind == 2:
            del data[at]
        else:
            del data[at + 1:]
    return bytes(data)


def as_topicfile(path):
    """The byte of the damage, or none; and the records."""
    try:
        return None, [record for _, records in topicfile.batches(read(path)) for record in records]
    except topicfile.Damaged as fault:
        return fault.at, []


def as_program(program, folder):
    """The byte of the damage, or none; and how many records the input has, where the run came to its end."""
    shutil.rmtree(os.path.join(folder, "tasks"), ignore_errors=True)
    done = subprocess.run([program, "run", folder], capture_output=True, text=True)
    damage = re.fullmatch(r"damaged: kafka\.lines 0: byte (\d+)\n", done.stderr)
    if damage:
        return int(damage[1]), None
    assert done.returncode in (0, 5), (done.returncode, done.stderr)
    end = re.search(r" end (\d+)\n", done.stdout)
    return None, int(end[1]) if end else None


def one(program, folder, path, data):
    write(path, data)
    damage, records = as_topicfile(path)
    seen, end = as_program(program, folder)
    assert (seen, end if end is not None else len(records)) == (damage, len(records)), (data, seen, end, damage, len(records))
    if damage is None:
        topicfile.append_file(path, ONE_MORE)
        assert as_topicfile(path) == (None, records + ONE_MORE), data
        return "are no damage"
    try:
        topicfile.append_file(path, ONE_MORE)
    except topicfile.Damaged as fault:
        assert fault.at == damage and read(path) == data, data
        return "are damage, at the same byte"
    raise AssertionError(f"appended to a damaged file: {data}")


def refused_lines(path):
    """A value and a key one byte too long, in the third line."""
    topicfile.write_file(path, ONE_MORE)
    before = read(path)
    for record, fits in (((b"", b"v" * 65537), (b"", b"v" * 65536)), ((b"k" * 1025, b""), (b"k" * 1024, b""))):
        for make in (topicfile.append_file, topicfile.write_file):
            try:
                make(path, [fits, fits, record])
                raise AssertionError("a line outside the limits is taken")
            except topicfile.Refused as fault:
                assert str(fault).startswith("line 3: ") and read(path) == before, fault
    assert os.listdir(os.path.dirname(path)) == ["0.log"]


def main():
    program, tries, draw = asking.ask_tries(__doc__, 1000, "changes")
    seen = collections.Counter()
    with tempfile.TemporaryDirectory() as folder:
        shutil.copy(CONFIGURATION, folder)
        path = os.path.join(folder, "streams", "kafka", "lines", "0.log")
        small, big = whole_files(path)
        for number in range(tries):
            seen[one(program, folder, path, changed(draw, big if number % 4 == 0 else small))] += 1
        refused_lines(path)
    for what, count in sorted(seen.items()):
        print(f"{count} files {what}")


if __name__ == "__main__":
    main()
