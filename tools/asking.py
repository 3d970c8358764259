"""How the tools ask for their words: the help of a tool is the text at its head.

  asker(text)                  a parser whose help is that text
  ask_tries(text, tries, what) the program, how many tries, and the draw of the seed, which determines `what`
"""
import argparse
import os
import random


def asker(text):
    about, _, rest = text.partition("\n\n")
    return argparse.ArgumentParser(description=about, epilog=rest, formatter_class=argparse.RawDescriptionHelpFormatter)


def ask_tries(text, tries, what):
    words = asker(text)
    words.add_argument("program", metavar="PROGRAM", help="the built program")
    words.add_argument("tries", metavar="TRIES", nargs="?", type=int, default=tries, help=f"how many: {tries:,} where it isn't given")
    words.add_argument("seed", metavar="SEED", nargs="?", type=int, default=1, help=f"determines the {what}: 1 where it isn't given")
    asked = words.parse_args()
    return os.path.abspath(asked.program), asked.tries, random.Random(asked.seed)
