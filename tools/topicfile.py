#!/usr/bin/env python3
"""Makes and shows the files of a job's folder, from outside the program (docs/formats.md).

It needs Python 3.8 or later and nothing else: no built program. It keeps to the limits of the format: a key of at most 1,024
bytes, a value of at most 65,536, frames of 1 to 4,096 records. What it writes itself is frames of at most 500 records.

Status: 0 well; 1 a record outside the limits, a damaged file or an error of the system, told in one line on standard error;
2 words that are no command.
"""
import argparse
import os
import struct
import sys

MASK = (1 << 64) - 1
OPEN, CLOSED = b"\x4f", b"\x43"
KEY_BYTES, VALUE_BYTES, FRAME_RECORDS = 1024, 65536, 4096
FRAME_BYTES = FRAME_RECORDS * (8 + KEY_BYTES + VALUE_BYTES)
NO_VALUE = 0xFFFFFFFF
WRITTEN_RECORDS = 500


class Refused(Exception):
    """What isn't done, and why."""


class Damaged(Exception):
    """A file that is no topic file, and the byte at which reading it as one stops."""

    def __init__(self, at):
        super().__init__(f"damaged at byte {at}")
        self.at = at


# Records that are written

def words_of(seed):
    """Lcg64Xsh32::new(seed, 54) of rand_pcg, as words w000 to w999."""
    increment = (54 << 1) | 1
    state = (seed + increment) & MASK
    state = (state * 6364136223846793005 + increment) & MASK
    while True:
        old = state
        state = (state * 6364136223846793005 + increment) & MASK
        shifted = (((old >> 18) ^ old) >> 27) & 0xFFFFFFFF
        turn = old >> 59
        draw = ((shifted >> turn) | (shifted << ((-turn) & 31))) & 0xFFFFFFFF
        yield b"w%03d" % (draw % 1000)


def word_records(seed, count):
    draws = words_of(seed)
    return ((b"%08d" % i, b" ".join(next(draws) for _ in range(4))) for i in range(count))


def line_records(lines):
    return ((b"", line.rstrip(b"\n")) for line in lines)


def pair_records(lines):
    for line in lines:
        key, tab, value = line.rstrip(b"\n").partition(b"\t")
        yield key, value if tab else None


def record(key, value, number):
    """A record's bytes. The number, from 1, is that of the line that it was made of."""
    for name, field, most in (("key", key, KEY_BYTES), ("value", value or b"", VALUE_BYTES)):
        if len(field) > most:
            raise Refused(f"line {number}: a {name} of {len(field)} bytes, where {most} are the most; nothing was written")
    head = struct.pack(">I", len(key)) + key
    if value is None:
        return head + struct.pack(">I", NO_VALUE)
    return head + struct.pack(">I", len(value)) + value


def frames_of(records):
    """The frames of all records, and how many records these are."""
    frames, batch, count = [], [], 0

    def close():
        if batch:
            body = b"".join(batch)
            frames.append(struct.pack(">II", len(body), len(batch)) + body)
            batch.clear()

    for key, value in records:
        count += 1
        batch.append(record(key, value, count))
        if len(batch) == WRITTEN_RECORDS:
            close()
    close()
    return frames, count


def make_folder(path):
    folder = os.path.dirname(path)
    if folder:
        os.makedirs(folder, exist_ok=True)


def write_file(path, records):
    """Makes the file anew, and answers how many records it has. Where a record is refused nothing is written."""
    frames, count = frames_of(records)
    make_folder(path)
    made = path + ".making"
    try:
        with open(made, "wb") as file:
            for frame in frames:
                file.write(OPEN + frame)
            file.write(CLOSED)
            file.flush()
            os.fsync(file.fileno())
        os.replace(made, path)
    except BaseException:
        if os.path.exists(made):
            os.remove(made)
        raise
    return count


def append_file(path, records):
    """Puts the records behind the file's last frame, and answers how many it had and how many were added.

    The gate behind the frames that were there is opened last, so that a reader finds none of the new ones or all.
    """
    frames, count = frames_of(records)
    make_folder(path)
    with open(path, "r+b" if os.path.exists(path) else "w+b") as file:
        had, gate, is_empty = last_gate(file.read())
        if is_empty:
            put(file, 0, CLOSED)
        if frames:
            put(file, gate + 1, OPEN.join(frames) + CLOSED)
            file.seek(gate)
            file.write(OPEN)
            sync(file)
    return had, count


def put(file, at, data):
    """Ends the file with these bytes, and syncs it."""
    file.seek(at)
    file.write(data)
    file.truncate()
    sync(file)


def sync(file):
    file.flush()
    os.fsync(file.fileno())


def last_gate(data):
    """How many records a file has, where its last gate stands, and whether it is too short to have frames."""
    had, gate = 0, 0
    for at, records in batches(data):
        had += len(records)
        gate = at + 9 + struct.unpack_from(">I", data, at + 1)[0]
    return had, gate, len(data) < 2


# Files that are read

def read_field(data, at, end, most, may_lack):
    """A length and its bytes, and the place behind them."""
    if at + 4 > end:
        raise Damaged(at)
    (size,) = struct.unpack_from(">I", data, at)
    if may_lack and size == NO_VALUE:
        return None, at + 4
    if size > most or at + 4 + size > end:
        raise Damaged(at)
    return data[at + 4:at + 4 + size], at + 4 + size


def read_records(data, at, end, number):
    records = []
    for _ in range(number):
        key, at = read_field(data, at, end, KEY_BYTES, False)
        value, at = read_field(data, at, end, VALUE_BYTES, True)
        records.append((key, value))
    if at != end:
        raise Damaged(at)
    return records


def batches(data):
    """The gate's byte and the records of each frame. Raises Damaged at the byte that docs/formats.md says."""
    if len(data) <= 1:
        return
    gate = 0
    while True:
        if gate >= len(data):
            raise Damaged(gate)
        if data[gate:gate + 1] != OPEN:
            return
        if gate + 9 > len(data):
            raise Damaged(gate + 1)
        length, number = struct.unpack_from(">II", data, gate + 1)
        end = gate + 9 + length
        if length > FRAME_BYTES or end > len(data):
            raise Damaged(gate + 1)
        if not 1 <= number <= FRAME_RECORDS:
            raise Damaged(gate + 5)
        yield gate, read_records(data, gate + 9, end, number)
        gate = end


def read_file(path):
    with open(path, "rb") as file:
        return file.read()


def text(data):
    return "".join(chr(b) if 0x21 <= b <= 0x7E and b != 0x5C else "\\x%02x" % b for b in data)


def show(path):
    data = read_file(path)
    at, offset = 0, 0
    for gate, records in batches(data):
        print(f"gate {gate} open, {len(records)} records")
        for key, value in records:
            print(f"  {offset} {text(key)} = {text(value)}" if value is not None else f"  {offset} {text(key)} !")
            offset += 1
        at = gate + 9 + struct.unpack_from(">I", data, gate + 1)[0]
    if len(data) > at:
        print(f"gate {at} is {data[at]:02X}; {len(data) - at - 1} bytes behind it")
    print(f"{offset} records, {len(data)} bytes")


# Checkpoints

def take(data, at, size):
    if at + size > len(data):
        raise Refused("a checkpoint's record ends early")
    return data[at:at + size], at + size


def parse_checkpoint(value):
    form, at = take(value or b"", 0, 1)
    if form != b"\x01":
        raise Refused(f"a checkpoint of the unknown format {form[0]}")
    out = {}
    raw, at = take(value, at, 2)
    out["inputs"] = []
    for _ in range(int.from_bytes(raw, "big")):
        raw, at = take(value, at, 1)
        name, at = take(value, at, raw[0])
        rest, at = take(value, at, 12)
        out["inputs"].append((name.decode("latin-1"), int.from_bytes(rest[:4], "big"), int.from_bytes(rest[4:], "big")))
    raw, at = take(value, at, 1)
    out["stores"] = []
    for _ in range(raw[0]):
        size, at = take(value, at, 1)
        name, at = take(value, at, size[0])
        rest, at = take(value, at, 8)
        out["stores"].append((name.decode("latin-1"), int.from_bytes(rest, "big")))
    raw, at = take(value, at, 1)
    out["outputs"] = []
    for _ in range(raw[0]):
        size, at = take(value, at, 1)
        name, at = take(value, at, size[0])
        out["outputs"].append(name.decode("latin-1"))
    if at != len(value):
        raise Refused("bytes behind a checkpoint")
    return out


def checkpoints(path):
    found = []
    for _, records in batches(read_file(path)):
        for key, value in records:
            found.append((int.from_bytes(key, "big"), parse_checkpoint(value)))
    return found


def show_checkpoint(number, mark):
    print(f"checkpoint {number}")
    for name, partition, offset in mark["inputs"]:
        print(f"  input {name} {partition} next {offset}")
    for name, count in mark["stores"]:
        print(f"  store {name} records {count}")
    for name in mark["outputs"]:
        print(f"  output {name}")


def show_state(folder, task):
    base = os.path.join(folder, "tasks", task)
    names = [name for name in os.listdir(base) if name.endswith(".log") and name[:-4].isdecimal()]
    for name in sorted(names, key=lambda name: int(name[:-4])):
        data = read_file(os.path.join(base, name))
        try:
            count = sum(len(records) for _, records in batches(data))
            print(f"file {name}: {count} records, {len(data)} bytes")
        except Damaged as fault:
            print(f"file {name}: {fault}, of {len(data)} bytes")
    marks = os.path.join(base, "0.log")
    found = checkpoints(marks) if os.path.exists(marks) else []
    if found:
        show_checkpoint(*found[-1])
    else:
        print("no checkpoint: a run begins the task anew")


# The command

def records_asked_for(asked):
    if asked.words:
        return word_records(*asked.words)
    file = sys.stdin.buffer if asked.input == "-" else open(asked.input, "rb")
    return pair_records(file) if asked.pairs else line_records(file)


def make(asked):
    if asked.append:
        had, count = append_file(asked.file, records_asked_for(asked))
        print(f"{count} records behind {had}")
        return
    if not asked.replace and os.path.exists(asked.file) and os.path.getsize(asked.file) > 1:
        raise Refused("it is there: --append adds to it, --replace makes it anew; nothing was written")
    print(f"{write_file(asked.file, records_asked_for(asked))} records")


def asked_for(words):
    about, _, rest = __doc__.partition("\n\n")
    top = argparse.ArgumentParser(description=about, epilog=rest, formatter_class=argparse.RawDescriptionHelpFormatter)
    commands = top.add_subparsers(dest="command", required=True)

    made = commands.add_parser(
        "make",
        help="make a topic file of lines, or append to one",
        description="Makes a topic file, or appends to one that is there. A record outside the limits is refused by its line's "
        "number, a damaged file by its byte, and then nothing is written. No job may run on the folder meanwhile.",
    )
    made.add_argument("file", metavar="FILE", help="the topic file; folders that are missing are made")
    made.add_argument("input", metavar="INPUT", nargs="?", default="-", help="the file of lines; - or none is standard input")
    kind = made.add_mutually_exclusive_group()
    kind.add_argument("--lines", action="store_true", help="a message a line, with an empty key; so it is where no kind is given")
    kind.add_argument("--pairs", action="store_true", help="a record a line: KEY TAB VALUE, or KEY alone for no value")
    kind.add_argument("--words", nargs=2, type=int, metavar=("SEED", "COUNT"), help="COUNT messages of four words each, no input")
    there = made.add_mutually_exclusive_group()
    there.add_argument("--append", action="store_true", help="put the records behind those of FILE")
    there.add_argument("--replace", action="store_true", help="make FILE anew where it has records")

    shown = commands.add_parser(
        "show", help="show a topic file", description="Shows each gate and record, and what stands behind the last gate. A byte "
        "outside ! to ~ is shown as \\xNN, and a record without a value as !."
    )
    shown.add_argument("file", metavar="FILE")
    marks = commands.add_parser("checkpoint", help="show a checkpoint file", description="Shows each checkpoint of tasks/N/0.log.")
    marks.add_argument("file", metavar="FILE")
    state = commands.add_parser(
        "state", help="show a task's files", description="Shows how many records each file of a task has, and its last checkpoint."
    )
    state.add_argument("folder", metavar="FOLDER", help="the job's folder")
    state.add_argument("task", metavar="TASK", help="the task's number")
    return top.parse_args(words)


def main(words):
    asked = asked_for(words)
    place = asked.folder if asked.command == "state" else asked.file
    try:
        if asked.command == "make":
            make(asked)
        elif asked.command == "show":
            show(asked.file)
        elif asked.command == "checkpoint":
            for number, mark in checkpoints(asked.file):
                show_checkpoint(number, mark)
        else:
            show_state(asked.folder, asked.task)
        sys.stdout.flush()
    except (Refused, Damaged) as fault:
        sys.stdout.flush()
        print(f"topicfile.py: {place}: {fault}", file=sys.stderr)
        return 1
    except BrokenPipeError:
        os.dup2(os.open(os.devnull, os.O_WRONLY), sys.stdout.fileno())
        return 1
    except OSError as fault:
        print(f"topicfile.py: {fault}", file=sys.stderr)
        return 1
    return 0


if __name__ == "__main__":
    sys.exit(main(sys.argv[1:]))
