#!/usr/bin/env python3
"""Runs the program on real folders that are not as they should be, and on one that is, and checks what it answers.

It needs the built program, as `rt run` leaves it in crates/samza_run/out/. Nothing is built. Each try has its own folder and
ten seconds. What is tried: pipes, sockets, folders, devices and links in place of files; a configuration of 1 GiB in little
memory; the cause of a device's failure, to the letter; memory that is refused before the command begins; and, where there is
strace, that the folders are synced before the first gate that counts on their files. One try needs root, to become nobody.

Status: 0 where each try went well; 1 with the first that didn't.
"""
import os
import re
import resource
import shutil
import socket
import subprocess
import tempfile

import asking

EXAMPLE = os.path.join(os.path.dirname(os.path.abspath(__file__)), "..", "examples", "word_count")
NOBODY = 65534
LINES = os.path.join("streams", "kafka", "lines", "0.log")
KINDS = {
    "pipe": os.mkfifo,
    "socket": lambda path: bind(path),
    "folder": os.mkdir,
    "link to a device that never ends": lambda path: os.symlink("/dev/zero", path),
    "link to a full device": lambda path: os.symlink("/dev/full", path),
}


def bind(path):
    here = os.getcwd()
    os.chdir(os.path.dirname(path))
    try:
        with socket.socket(socket.AF_UNIX) as made:
            made.bind(os.path.basename(path))
    finally:
        os.chdir(here)


class Tries:
    def __init__(self, program, place):
        self.program, self.place, self.done = program, place, 0

    def fresh(self):
        """A new folder of the example."""
        self.done += 1
        folder = os.path.join(self.place, f"try{self.done}")
        shutil.copytree(EXAMPLE, folder)
        return folder

    def run(self, folder, cause=True, limits=(), user=None, before=()):
        """The status, and what was printed on standard output and on standard error."""
        environment = {"PATH": os.environ["PATH"]}
        if cause:
            environment["SAMZA_RUN_CAUSE"] = "1"

        def limited():
            for kind, most in limits:
                resource.setrlimit(kind, (most, most))

        done = subprocess.run(
            [*before, self.program, "run", folder],
            stdin=subprocess.DEVNULL,
            capture_output=True,
            timeout=10,
            env=environment,
            user=user,
            preexec_fn=limited if limits else None,
        )
        return done.returncode, done.stdout.decode(), done.stderr.decode()

    def want(self, what, got, status, err):
        assert got == (status, "", err), f"{what}: {got}, and not {(status, '', err)}"
        print(f"{what}: {' / '.join(err.splitlines())}")

    def replaced(self, kind, at, call):
        """Something else in place of a file is a device's failure at once."""
        folder = self.fresh()
        path = os.path.join(folder, at)
        os.makedirs(os.path.dirname(path), exist_ok=True)
        if os.path.exists(path):
            os.remove(path)
        KINDS[kind](path)
        err = f"device failed\ncause: {call} {at}: not a regular file\n"
        self.want(f"{kind} as {at}", self.run(folder), 4, err)

    def plain(self):
        """By default standard error is the line of the fault alone."""
        folder = self.fresh()
        os.makedirs(os.path.join(folder, "tasks", "0", "0.log"))
        self.want("no cause asked for", self.run(folder, cause=False), 4, "device failed\n")

    def links(self):
        """A link to a regular file is one."""
        folder = self.fresh()
        path = os.path.join(folder, "job.properties")
        os.rename(path, path + ".kept")
        os.symlink("job.properties.kept", path)
        status, out, err = self.run(folder)
        assert (status, err) == (0, "") and out.endswith("total new 3\n"), (status, out, err)
        print("a link to a regular file as job.properties: well")

    def no_partition(self):
        """What is no regular file is no partition."""
        folder = self.fresh()
        os.mkdir(os.path.join(folder, "streams", "kafka", "lines", "7.log"))
        status, out, err = self.run(folder)
        assert (status, err) == (0, "") and out.startswith("container 0 tasks 1\n"), (status, out, err)
        print("a folder as 7.log of an input: no partition")

    def no_input(self, kind):
        """Nor is it an input's only one."""
        folder = self.fresh()
        os.remove(os.path.join(folder, LINES))
        KINDS[kind](os.path.join(folder, LINES))
        self.want(f"{kind} as {LINES}", self.run(folder), 3, "config: task.inputs: Unknown\n")

    def long_text(self):
        """A configuration of 1 GiB ends with its limit, in 64 MiB of memory."""
        folder = self.fresh()
        os.truncate(os.path.join(folder, "job.properties"), 1 << 30)
        got = self.run(folder, limits=[(resource.RLIMIT_AS, 64 << 20)])
        self.want("a configuration of 1 GiB", got, 9, "limit: text\n")

    def too_long_a_file(self):
        """A write past the process's limit of file sizes fails, and the system's words are told."""
        folder = self.fresh()
        status, out, err = self.run(folder, limits=[(resource.RLIMIT_FSIZE, 100)], before=IGNORING)
        line = r"device failed\ncause: write_at tasks/0/\d+\.log: File too large \(os error 27\)\n"
        assert status == 4 and out == "" and re.fullmatch(line, err), (status, out, err)
        print(f"a write past the limit of sizes: {' / '.join(err.splitlines())}")

    def not_permitted(self):
        """A folder in which nothing may be made."""
        if os.geteuid() != 0:
            return print("a folder in which nothing may be made: not tried, since it needs root to become nobody")
        folder = self.fresh()
        os.chmod(self.place, 0o755)
        program, self.program = self.program, os.path.join(self.place, "program")
        shutil.copy(program, self.program)
        err = "device failed\ncause: lend tasks/0/: Permission denied (os error 13)\n"
        self.want("a folder in which nothing may be made", self.run(folder, user=NOBODY), 4, err)
        self.program = program

    def synced(self):
        """The folders of a made file are synced before the gate that counts on it is opened."""
        if shutil.which("strace") is None:
            return print("the syncs of folders: not tried, since there is no strace")
        folder = self.fresh()
        trace = os.path.join(self.place, "trace")
        names = "openat,mkdir,fsync,pwrite64"
        status, _, err = self.run(folder, before=["strace", "-f", "-y", "-o", trace, "-e", f"trace={names}"])
        assert status == 0, err
        with open(trace) as file:
            lines = file.read().splitlines()
        print(f"the syncs of folders: {checked_syncs(lines)}")


# a shell that has the signal of too long a file ignored
IGNORING = ["/bin/sh", "-c", 'trap "" XFSZ; exec "$@"', "sh"]


def checked_syncs(lines):
    """That each write to the checkpoint's file finds each file and folder that was made synced in the folder above it."""
    made, unsynced, syncs, writes = set(), set(), 0, 0
    for line in lines:
        opened = re.search(r'(?:mkdir\("([^"]+)", 0777\) += 0|"([^"]+)", [A-Z_|]*O_CREAT.*\) = \d)', line)
        path = opened and (opened[1] or opened[2]).rstrip("/")
        if path and path not in made:
            made.add(path)
            unsynced.add(path)
        synced = re.search(r"fsync\(\d+<([^>]+)>\) += 0", line)
        if synced:
            syncs += 1
            unsynced = {path for path in unsynced if os.path.realpath(os.path.dirname(path)) != synced[1]}
        if re.search(r"pwrite64\(\d+<[^>]+/tasks/0/0\.log>", line):
            writes += 1
            assert not unsynced, f"the checkpoint's file is written, and not synced in their folders are {unsynced}"
    assert writes == 3 and len(made) == 5, (writes, made)
    return f"{syncs}, by which all that was made is kept before each of {writes} writes to the checkpoint's file"


def refused_memory(program):
    """Memory that is refused for the command's words ends the program with its line and status."""
    words = [program, "run", *("x" * 100_000 for _ in range(18))]

    def limited():
        resource.setrlimit(resource.RLIMIT_DATA, (1 << 19, 1 << 19))

    done = subprocess.run(words, capture_output=True, timeout=10, preexec_fn=limited)
    assert (done.returncode, done.stdout, done.stderr) == (8, b"", b"no memory\n"), done
    print("memory refused for the command's words: no memory")


def main():
    words = asking.asker(__doc__)
    words.add_argument("program", metavar="PROGRAM", help="the built program")
    program = os.path.abspath(words.parse_args().program)
    with tempfile.TemporaryDirectory() as place:
        tries = Tries(program, place)
        for kind in KINDS:
            tries.replaced(kind, "job.properties", "text")
            tries.replaced(kind, os.path.join("tasks", "0", "0.log"), "sync")
            tries.no_input(kind)
        tries.plain()
        tries.links()
        tries.no_partition()
        tries.long_text()
        tries.too_long_a_file()
        tries.not_permitted()
        tries.synced()
        refused_memory(program)
    print(f"{tries.done + 1} tries went well")


if __name__ == "__main__":
    main()
