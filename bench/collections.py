#!/usr/bin/env python3
"""Compares the calls of a program's maps, or of its sequences, with those of collections in Rust.

`COLLECTIONS PEER WORKLOAD ITEMS` and `PROGRAM WORKLOAD ITEMS` are run in turn, held to one processor; each prints the
nanoseconds of each call, and a checksum. `btree` and `vec` are std's `BTreeMap` and `Vec`, and `im` the `OrdMap` or
the `Vector` of im-rc with atomic counts, if COLLECTIONS has them. It prints the nanoseconds of one call, or of one
item that is dropped, the least of the rounds, and its ratio to that of each peer, with a verdict if there is a goal.

The bytes an item are the most memory that the process had for all of them, without the list of their keys.
The status is 2 if a checksum differs, else 1 if a goal was missed, else 0.
"""
import argparse
import os
import subprocess
import sys

WORKLOADS = {"maps": ["map-rising", "map-mixed"], "sequences": ["sequence"]}
CALLS = {"maps": ["insert", "get", "step", "modify", "clone", "version", "remove", "pop_first", "pop_last", "drop"],
         "sequences": ["push", "get", "step", "version", "insert", "remove", "split_off", "append", "pop", "drop"]}
SIZES = [1_000, 100_000, 1_000_000]
ITEMS = 1_000_000  # that are put in, at least, as in collections.rs
VERSIONS = 100_000
MAPS = 4  # that are made, at least, of which three calls take a part each
CHANGES = 1_000  # in the middle of a sequence
LIST = 8 * SIZES[-1]  # bytes
WITHOUT_VERSIONS = ["btree", "vec"]
ALL = CALLS["maps"] + ["bytes"]
# The most of a peer's time that a call may take. Other calls are only told, and all of sequences of 1,000 items.
GOALS = {"maps": {"im": dict.fromkeys(set(ALL) - {"clone"}, 1.00),
                  "btree": {"remove": 2.00}},
         "sequences": {"im": dict.fromkeys(["insert", "remove", "split_off", "append"], 1.00), "vec": {}}}


def counts(kind, items):
    """How often a run makes each call."""
    if kind == "sequences":
        made = max(ITEMS // items, 2)
        half = made // 2 * items
        return dict.fromkeys(CALLS[kind], CHANGES) | {"get": ITEMS, "step": ITEMS, "version": VERSIONS, "pop": half,
                                                      "push": made * items, "drop": made * items - half}
    made = max(ITEMS // items, MAPS)
    part = made // MAPS * items
    return dict.fromkeys(CALLS[kind], part) | dict.fromkeys(["get", "step", "modify", "clone"], ITEMS) | {
        "insert": made * items, "version": VERSIONS, "drop": made * items - 3 * part}


def run(command, kind, workload, items):
    """The nanoseconds of each call, the bytes an item, and the checksum."""
    with subprocess.Popen([*command, workload, str(items)], stdout=subprocess.PIPE, text=True) as process:
        *lines, checksum = process.stdout.read().split("\n")[:-1]
        _, _, usage = os.wait4(process.pid, 0)
    taken = {call: int(nanoseconds) for call, nanoseconds in (line.split() for line in lines)}
    found = {call: taken[call] / count for call, count in counts(kind, items).items()}
    return found | {"bytes": (usage.ru_maxrss * 1024 - LIST) / ((MAPS if kind == "maps" else 2) * SIZES[-1])}, checksum


def is_compared(peer, call):
    return peer not in WITHOUT_VERSIONS or call not in ("clone", "version")


def goal_of(kind, items, call, peer):
    """The most of this peer's time that the call may take, or None."""
    has_goal = is_compared(peer, call) and (kind, items) != ("sequences", SIZES[0])
    return GOALS[kind][peer].get(call) if has_goal else None


def judged(kind, items, call, ratios):
    """The ratio to each peer, with its verdict."""
    for peer, ratio in ratios.items():
        goal = goal_of(kind, items, call, peer)
        yield f"{ratio:.{2 if ratio >= 0.1 else 3}f}" if is_compared(peer, call) else "-"
        yield "-" if goal is None else "met" if ratio <= goal else "missed"


def measured(commands, kind, cases, count):
    """What each program took in each of the rounds. A round has all cases, so that a time in which the machine is slow
    meets each of them alike."""
    rounds, sums = {}, {}
    for turn in range(count):
        for case in cases:
            for who in sorted(commands, reverse=turn % 2):
                found, checksum = run(commands[who], kind, *case)
                rounds.setdefault(case, {}).setdefault(who, []).append(found)
                sums.setdefault(case, set()).add(checksum)
    for case in cases:
        if len(sums[case]) > 1:
            print(*case, "the checksums differ", file=sys.stderr)
            sys.exit(2)
    return rounds


def rows_of(commands, kind, workload, items, rounds):
    """A row for each call: the least of each program, and how it compares with each peer."""
    for call in CALLS[kind] + (["bytes"] if items == SIZES[-1] else []):
        least = {who: min(found[call] for found in rounds[who]) for who in commands}
        ratios = {who: least["program"] / least[who] for who in commands if who != "program"}
        yield [workload, str(items), call, *(f"{taken:.1f}" for taken in least.values()),
               *judged(kind, items, call, ratios)]


def main():
    parser = argparse.ArgumentParser(description=__doc__, formatter_class=argparse.RawDescriptionHelpFormatter)
    parser.add_argument("kind", choices=WORKLOADS)
    parser.add_argument("collections", help="the program of the collections in Rust")
    parser.add_argument("program", help="the program that is measured")
    parser.add_argument("--rounds", type=int, default=9)
    parser.add_argument("--table", default=os.devnull, help="a file for the figures, a line a call, with tabs")
    asked = parser.parse_args()
    collections, program = os.path.abspath(asked.collections), os.path.abspath(asked.program)
    listed = subprocess.run([collections, "list"], capture_output=True, text=True, check=True).stdout.splitlines()
    peers = dict(line.split(maxsplit=1) for line in listed)[asked.kind].split()
    commands = {"program": [program]} | {peer: [collections, peer] for peer in peers}
    os.sched_setaffinity(0, {max(os.sched_getaffinity(0))})
    missed = False
    with open(asked.table, "w", encoding="utf-8") as table:
        print("workload", "items", "call", *commands, *(word for peer in peers for word in ("/" + peer, "goal")),
              sep="\t", file=table)
        cases = [(workload, items) for items in SIZES for workload in WORKLOADS[asked.kind]]
        for case, rounds in measured(commands, asked.kind, cases, asked.rounds).items():
            for row in rows_of(commands, asked.kind, *case, rounds):
                print(*row, sep="\t", file=table)
                print(*(f"{word:>11}" for word in row))
                missed |= "missed" in row
    sys.exit(missed)


if __name__ == "__main__":
    main()
