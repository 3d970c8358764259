#!/usr/bin/env python3
"""Counts the lines of the repository by layer, as a Markdown table.

  sizes.py            prints the table
  sizes.py --write    writes what README.md and docs/architecture.md show of it

Of each layer: its crates, the lines of code, of contracts (`requires`, `ensures` and what belongs to them), of definitions
(specs/), of proofs (proofs/) and of tests. Blank lines and comments aren't counted. A crate that no layer names is listed under
"Others". Crates of tests, with what they share, and a file tests.rt count as tests alone.
"""
import os
import re

import asking

TOP = os.path.join(os.path.dirname(os.path.abspath(__file__)), "..")
LAYERS = [
    ("Types and definitions", "samza_model history_laws"),
    ("Outside", "disk_model disk_memory file_host edge_io"),
    ("Text and configuration", "props_text props_show config_values job_config"),
    ("Logs", "log_frame topic_log checkpoint_log output_log"),
    ("State", "kv_store changelog"),
    ("A task", "offset_window callback_manager packed_events window_timer core_steps core_plans core_parts task_core restore_trim "
     "unit_logs unit_opening unit_steps event_unit run_loop"),
    ("Jobs", "shipped_jobs"),
    ("Container and program", "container_texts task_runs samza_container samza_run"),
    ("Plain programs", "slow_model slow_logs"),
]
SHARED = "test_kit"
KINDS = ["code", "contracts", "definitions", "proofs", "tests"]
CLAUSE = re.compile(r"\s*(requires|ensures|ghost)\b")


def is_of_tests(crate):
    return crate.endswith("_tests") or crate == SHARED


def lines_of(path, comment):
    with open(path, encoding="utf-8") as opened:
        return [line for line in opened if line.strip() and not line.strip().startswith(comment)]


def add_source(path, counts, is_test):
    """A clause goes on until its brackets are closed."""
    depth, inside = 0, False
    for line in lines_of(path, "//"):
        inside = inside or bool(CLAUSE.match(line))
        counts["tests" if is_test else "contracts" if inside else "code"] += 1
        depth += (line.count("{") - line.count("}")) if inside else 0
        inside = inside and depth > 0


def counts_of(crate):
    counts = dict.fromkeys(KINDS, 0)
    for folder, _, files in os.walk(os.path.join(TOP, "crates", crate)):
        part = os.path.relpath(folder, os.path.join(TOP, "crates", crate)).split(os.sep)[0]
        is_test = is_of_tests(crate)
        for name in files:
            path = os.path.join(folder, name)
            if part == "src" and name.endswith(".rt"):
                add_source(path, counts, is_test or name == "tests.rt")
            elif part in ("specs", "proofs") and name.endswith(".antt"):
                kind = "tests" if is_test else "definitions" if part == "specs" else "proofs"
                counts[kind] += len(lines_of(path, "--"))
    return counts


def row(cells, counts, kinds):
    return "| %s | %s |" % (" | ".join(cells), " | ".join(f"{counts[kind]:,}" for kind in kinds))


def table(columns, rows, kinds):
    head = "| %s | %s |" % (" | ".join(columns), " | ".join(kind.capitalize() for kind in kinds))
    return [head, "|" + " --- |" * len(columns) + " ---: |" * len(kinds)] + rows


def sum_of(counts):
    counts = list(counts)
    return {kind: sum(count[kind] for count in counts) for kind in KINDS}


def layers_of(crates):
    layers = [(name, [crate for crate in members.split() if crate in crates]) for name, members in LAYERS]
    placed = [crate for _, members in layers for crate in members]
    layers.append(("Tests", [crate for crate in crates if is_of_tests(crate)]))
    layers.append(("Others", [crate for crate in crates if crate not in placed and not is_of_tests(crate)]))
    return [(name, members) for name, members in layers if members]


def replace_table(name, columns, rows, kinds):
    """Puts the rows in the place of the table of a document that has these columns and kinds."""
    path = os.path.join(TOP, name)
    with open(path, encoding="utf-8") as opened:
        lines = opened.read().split("\n")
    new = table(columns, rows, kinds)
    start = lines.index(new[0])
    end = next(place for place in range(start, len(lines)) if not lines[place].startswith("|"))
    with open(path, "w", encoding="utf-8") as opened:
        opened.write("\n".join(lines[:start] + new + lines[end:]))


def replace_text(name, pattern, text):
    path = os.path.join(TOP, name)
    with open(path, encoding="utf-8") as opened:
        old = opened.read()
    new, found = re.subn(pattern, text, old)
    if found != 1:
        raise SystemExit("%s: %d places for %s" % (name, found, pattern))
    with open(path, "w", encoding="utf-8") as opened:
        opened.write(new)


def write(layers, counts):
    kinds = KINDS[:-1]
    everything = sum_of(counts.values())
    shown = [(name, members) for name, members in layers if name != "Tests"]
    rows = [row([name], sum_of(counts[crate] for crate in members), kinds) for name, members in shown]
    replace_table("README.md", ["Layer"], rows + [row(["**All**"], everything, kinds)], kinds)
    replace_text("README.md", r"and [\d,]+ lines of tests beside them", f"and {everything['tests']:,} lines of tests beside them")
    crates = [crate for crate in counts if not is_of_tests(crate)]
    replace_table("docs/architecture.md", ["Crate"], [row(["`%s`" % crate], counts[crate], kinds) for crate in crates], kinds)
    tests = sorted((crate for crate in counts if crate.endswith("_tests")), key=lambda crate: -counts[crate]["tests"])
    told = ", ".join(f"`{crate}` {counts[crate]['tests']:,}" for crate in tests).replace(", ", " lines, ", 1)
    replace_text("docs/architecture.md", r"Tests: [^;]*; and what\nthey share, `test_kit`, \d+\.",
                 f"Tests: {told}; and what\nthey share, `{SHARED}`, {counts[SHARED]['tests']}.")


def main():
    asker = asking.asker(__doc__)
    asker.add_argument("--write", action="store_true", help="writes the tables of the documents, and prints nothing")
    asked = asker.parse_args()
    with open(os.path.join(TOP, "crates.txt"), encoding="utf-8") as listed:
        crates = [line.split(":")[0].split()[0] for line in listed if line.strip() and not line.startswith("#")]
    counts = {crate: counts_of(crate) for crate in crates}
    layers = layers_of(crates)
    if asked.write:
        write(layers, counts)
        return
    rows = [row([name, ", ".join("`%s`" % crate for crate in members)], sum_of(counts[crate] for crate in members), KINDS) for name, members in layers]
    everything = row(["**All**", str(len(crates))], sum_of(counts.values()), KINDS)
    print("\n".join(table(["Layer", "Crates"], rows + [everything], KINDS)))


if __name__ == "__main__":
    main()
