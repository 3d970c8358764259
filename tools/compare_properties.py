#!/usr/bin/env python3
"""Compares what props_show reads in generated properties texts with what java.util.Properties reads in them.

The texts are all those of up to 4 of the bytes a, #, backslash, =, space, LF and CR, and others that the seed determines. The
program is crates/props_show, which is proved and built first where no other is given. The other side is ShowProperties.java,
compiled into a temporary folder. It needs a JDK: `javac` and `java`.

The two sides may differ in just the ways that docs/configuration.md lists. For each of them this script writes the text anew,
so that the difference is gone (`without_differences`). What props_show reads in a text has to be exactly what Java reads in the
text that is written anew, and the differences are those texts in which Java reads something else. Java names no line where it
refuses a text: the line that props_show names is right where Java still refuses the text with each `u` behind that line made
harmless, and takes it with those of the line made harmless too. What props_show writes is read by Java once more, which has to
give the same pairs.

Status: 0 where no text differs otherwise; 1 where one does, which is printed.
"""
import collections
import itertools
import os
import random
import re
import subprocess
import sys
import tempfile

import asking

TOOLS = os.path.dirname(os.path.abspath(__file__))
CRATE = os.path.join(TOOLS, "..", "crates", "props_show")

SHORT = b"a#\\= \n\r"
WHITE = b" \t\f"
COMMENT = "a continuing line that begins with # or ! is no comment"
EMPTY = "a logical line that is empty after all is no pair"


def natural_lines(text):
    """The natural lines with their ends, as pairs."""
    parts = re.split(rb"(\r\n|\r|\n)", text)
    return list(zip(parts[::2], parts[1::2] + [b""]))


def goes_on(body):
    return (len(body) - len(body.rstrip(b"\\"))) % 2 == 1


def without_differences(text):
    """The text written anew, so that Java reads in it what is wanted of the first one; and which differences that took.

    A backslash is put before a # or ! with which a continuing line begins while its logical line is still empty, and the
    natural lines of a logical line that is empty after all are made blank. The lines keep their numbers.
    """
    written, rules, begun, content = [], set(), [], False
    for body, end in natural_lines(text):
        shown = body.lstrip(WHITE)
        is_comment = shown[:1] in (b"#", b"!")
        if not begun and (not shown or is_comment):
            written.append([body, end])
            continue
        line = [body, end]
        if is_comment and not content:
            rules.add(COMMENT)
            line[0] = b"\\" + shown
        written.append(line)
        begun.append(line)
        content = content or len(shown) > (1 if goes_on(body) else 0)
        if not goes_on(body):
            if not content:
                drop(begun, rules)
            begun, content = [], False
    if begun and not content:
        drop(begun, rules)
    return b"".join(body + end for body, end in written), rules


def drop(lines, rules):
    rules.add(EMPTY)
    for line in lines:
        line[0] = b" "


# Generated texts

ENDS = [b"\n", b"\n", b"\r\n", b"\r"]
ESCAPES = [b"\\t", b"\\n", b"\\r", b"\\f", b"\\\\", b"\\ ", b"\\=", b"\\:", b"\\#", b"\\!", b"\\z", b"\\\"", b"\\\xe9", b"\\0"]
BAD_ESCAPES = [b"\\u", b"\\u1", b"\\u00", b"\\u00e", b"\\u00g0", b"\\uuuu", b"\\u 041", b"\\u+041", b"\\u-001", b"\\u00=4", b"\\u\xe9\xe9\xe9\xe9"]
SEPARATORS = [b"=", b":", b" ", b"\t", b"\f", b" = ", b" : ", b"==", b"=:", b"  ", b" =\t", b"\t: ", b" = = ", b""]
WHITES = [b" ", b"\t", b"\f", b"  ", b" \t\f", b""]
ODD_BYTES = [bytes([byte]) for byte in [0, 1, 8, 11, 14, 26, 27, 28, 29, 30, 31, 127, 128, 133, 160, 173, 195, 233, 239, 254, 255]]


def unicode_escape(draw):
    digits = "%04x" % draw.choice([0, 9, 10, 13, 0x20, 0x3A, 0x3D, 0x41, 0x5C, 0x23, 0xE9, 0x2028, 0xD83D, 0xDE00, 0xFFFF, draw.randrange(65536)])
    return b"\\u" + "".join(draw.choice([digit, digit.upper()]) for digit in digits).encode()


def piece(draw):
    """A few bytes of a key or a value."""
    kind = draw.random()
    if kind < 0.55:
        return bytes(draw.choice(b"abcdeftnru019._-") for _ in range(draw.randrange(1, 5)))
    if kind < 0.7:
        return draw.choice(ESCAPES)
    if kind < 0.8:
        return unicode_escape(draw)
    if kind < 0.88:
        return draw.choice(ODD_BYTES)
    if kind < 0.94:
        return draw.choice([b"#", b"!", b"\\" * draw.randrange(2, 7), b"=", b":"])
    return draw.choice([b"\\" + draw.choice(ENDS) + draw.choice(WHITES)])


def words(draw, most):
    return b"".join(piece(draw) for _ in range(draw.randrange(most + 1)))


def some_line(draw):
    kind = draw.random()
    if kind < 0.12:
        line = draw.choice(WHITES) + draw.choice([b"#", b"!"]) + words(draw, 4) + draw.choice([b"", b"", b"\\", b"\\u"])
    elif kind < 0.2:
        line = draw.choice(WHITES)
    elif kind < 0.28:
        line = draw.choice(WHITES) + b"\\" * draw.randrange(1, 4)
    else:
        line = draw.choice(WHITES) + words(draw, 4) + draw.choice(SEPARATORS) + words(draw, 5) + draw.choice([b"", b"", b" ", b"\\", b"\\\\", b"\\\\\\"])
    return line + draw.choice(ENDS)


def regular(draw):
    """A text of a few lines."""
    text = b"".join(some_line(draw) for _ in range(draw.randrange(1, 9)))
    return text[:-1] if draw.random() < 0.3 else text


def damaged(draw):
    """A text with bytes that were changed, lost, added or moved."""
    text = bytearray(regular(draw))
    for _ in range(draw.randrange(1, 4)):
        at = draw.randrange(len(text) + 1)
        kind = draw.randrange(5)
        if kind == 0:
            text[at:at] = draw.choice(BAD_ESCAPES + [b"\\", b"\r", b"\n", b"#", b"\\u"])
        elif kind == 1:
            del text[at:at + draw.randrange(1, 4)]
        elif kind == 2:
            text[at:at + 1] = bytes([draw.randrange(256)])
        elif kind == 3:
            del text[at:]
        else:
            text[at:] = text[at:] + text[:at]
    return bytes(text)


def soup(draw):
    """Any bytes of a few that mean something, and now and then any byte at all."""
    size = draw.randrange(1, 24)
    if draw.random() < 0.2:
        return bytes(draw.randrange(256) for _ in range(size))
    return b"".join(draw.choice([b"\\", b"\\", b"\n", b"\r", b"#", b"!", b"=", b":", b" ", b"\t", b"\f", b"a", b"u", b"\\u0041", b"\xff"]) for _ in range(size))


def long_text(draw):
    """A text of some ten thousand bytes, where a line, a comment or a run of backslashes is long."""
    fill = draw.choice([b"a", b"\\", b" ", b"\\\n", b"\\\r\n  ", b"\\u0041", b"\\\\\\\r", b"x=y\r\n", b"\xe9"])
    size = draw.choice([draw.randrange(1000, 20000), 8192 + draw.randrange(-6, 7)])
    middle = (fill * (size // len(fill) + 1))[:size]
    return draw.choice([b"", b"#", b"k=", b"\\", regular(draw)]) + middle + draw.choice([b"", b"\r\n", b"\\\r\n", b"\\u", regular(draw)])


def texts(count, seed):
    draw = random.Random(seed)
    for size in range(5):
        yield from (bytes(text) for text in itertools.product(SHORT, repeat=size))
    for _ in range(count):
        yield draw.choices([regular, damaged, soup, long_text], [40, 35, 23, 2])[0](draw)


# Running both sides

def shown(command, top, contents):
    """What a program shows of each of these texts, which it reads in one run."""
    with tempfile.TemporaryDirectory(dir=top) as folder:
        names = []
        for number, text in enumerate(contents):
            names.append(str(number))
            with open(os.path.join(folder, names[-1]), "wb") as file:
                file.write(text)
        done = subprocess.run(command + names, cwd=folder, stdout=subprocess.PIPE, check=True)
    parts = re.split(rb"^# (\d+)\n", done.stdout, flags=re.MULTILINE)
    if parts[0] or [name.decode() for name in parts[1::2]] != names:
        sys.exit("%s doesn't show each text" % command[0])
    return parts[2::2]


def build_program():
    done = subprocess.run(["rt", "run", "--", "count"], cwd=CRATE, stdout=subprocess.PIPE, stderr=subprocess.STDOUT)
    if done.returncode:
        sys.exit(done.stdout.decode(errors="replace"))
    return os.path.abspath(os.path.join(CRATE, "out", "props_show"))


# Comparing them

REFUSED = b"BadEscape\n"


def refused_line(ours):
    """The line of the malformed escape, or None where props_show shows pairs."""
    line = re.fullmatch(rb"line ([1-9][0-9]*): BadEscape\n", ours)
    return int(line[1]) if line else None


def harmless_from(number, text):
    """The text, in which no escape is malformed that begins in the line of this number or behind it."""
    lines = natural_lines(text)
    return b"".join((body.replace(b"u", b"x") if at >= number else body) + end for at, (body, end) in enumerate(lines, 1))


def agree(ours, javas):
    return javas == (ours if refused_line(ours) is None else REFUSED)


class Comparison:
    """What both sides made of each text, in this order: the text, which differences it has, what props_show shows, and what Java
    shows of the text, of the text written anew, of that with harmless lines from the refused one on and behind it, and of what
    props_show wrote."""

    def __init__(self, program, all_texts):
        anew, rules = zip(*map(without_differences, all_texts))
        with tempfile.TemporaryDirectory() as top:
            classes = os.path.join(top, "classes")
            subprocess.run(["javac", "-d", classes, os.path.join(TOOLS, "ShowProperties.java")], check=True)
            java = ["java", "-cp", classes, "ShowProperties"]
            ours = shown([program, "pairs"], top, all_texts)
            lines = [refused_line(text) or 0 for text in ours]
            self.rows = zip(
                all_texts,
                rules,
                ours,
                shown(java, top, all_texts),
                shown(java, top, anew),
                shown(java, top, map(harmless_from, lines, anew)),
                shown(java, top, [harmless_from(line + 1, text) for line, text in zip(lines, anew)]),
                shown(java, top, [b"" if line else text for line, text in zip(lines, ours)]),
            )

    def told(self):
        """Prints the counts and the texts that differ otherwise than is listed, and gives the status."""
        counts, other = collections.Counter(), 0
        for text, rules, ours, javas, of_anew, of_earlier, of_line, of_written in self.rows:
            if refused_line(ours) is None:
                fine = ours == of_anew == of_written
            else:
                fine = of_anew == of_line == REFUSED != of_earlier
            if not fine:
                other += 1
                print("differs: %r\n  props_show: %r\n  java: %r" % (text, ours, of_anew))
            elif not agree(ours, javas):
                counts["differ: " + ", and ".join(sorted(rules))] += 1
            elif javas == REFUSED:
                counts["are refused by both, in the same line"] += 1
            else:
                counts["have the same pairs"] += 1
        print("Of %d texts" % (sum(counts.values()) + other))
        for what, count in sorted(counts.items()):
            print("%7d %s" % (count, what))
        print("%7d differ otherwise" % other)
        return 1 if other else 0


def main():
    words_of = asking.asker(__doc__)
    words_of.add_argument("--texts", metavar="N", type=int, default=5000, help="how many generated texts: 5,000 where it isn't given")
    words_of.add_argument("--seed", metavar="N", type=int, default=1, help="determines them: 1 where it isn't given")
    words_of.add_argument("--program", metavar="PROGRAM", help="the built props_show; where it isn't given it is proved and built")
    chosen = words_of.parse_args()
    program = os.path.abspath(chosen.program) if chosen.program else build_program()
    sys.exit(Comparison(program, list(texts(chosen.texts, chosen.seed))).told())


if __name__ == "__main__":
    main()
