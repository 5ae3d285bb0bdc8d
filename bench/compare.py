#!/usr/bin/env python3
"""Compares a program's workloads with those of each pointer that has them.

`BENCH POINTER WORKLOAD N` and `PROGRAM WORKLOAD N` are run in turn: the ported crate `servo` twice, first as the
control, which shows what noise alone gives; the program, `twin` and `std`. Each run follows one of no iterations, which
is taken off, so that the preparation is not measured. N is chosen so that the slower of `servo` and the program takes
about 0.12 s, and twice as long as its preparation. All have to print one checksum. What has one thread is held to one
processor. A short loop that crosses a line of 32 bytes may take twice as long, so a program that was linked at a second
place too, as PROGRAM.moved, is run from the place where three runs are faster.

It prints the nanoseconds a unit of each, the ratio of the program's elapsed time to that of `servo`, the control, the
figure that has a goal, and a verdict. With --script it does the same for scripts, which `servo` alone runs.

Judged is the interval in which the median lies, 95 times of 100. A round is below the median as a coin shows heads, so
it reaches from the k-th least round to the k-th greatest, with the greatest k for which fewer than k heads in as many
tosses are seen at most 2.5 times of 100: of 15 rounds from the 4th to the 12th. That takes the rounds to be
independent, and no more. A goal is `met` if all of the interval is within it, and `missed` if none is. Until then it
measures on, up to --most rounds or --most-seconds; if they do not tell, the figure is `at the goal`: it differs from
the goal by less than these rounds can tell. Since it looks after each round, of figures just at the goal 7 or 8 of 100
are called met, and as many missed. If the control's interval is farther than 0.02 from 1, the verdict is `busy`: the
order or the machine favours one.

The status is 2 if a checksum differs or a workload that was named does not run, else 1 if a goal was missed, else 3 if
a goal could not be judged: a figure was at it, or the machine busy.
"""
import argparse
import os
import sys
import time

from measure import interval, least, median, middle_half, ratio
from programs import PEERS, Script, Workload, workloads_of

PROCESSORS = os.sched_getaffinity(0)
UNTOLD = ("at the goal", "busy")
FEWEST = 9  # rounds, however long they take
ENOUGH = 15  # rounds, if they tell
NOISE = 0.02
COLUMNS = (["workload", "rounds", "program_ns"] + [peer + "_ns" for peer in PEERS] + ["ratio", "low", "high"]
           + [peer + "_ratio" for peer in PEERS[1:]]
           + ["least_ratio", "control", "control_from", "control_to", "goal", "judged_from", "judged_to", "verdict"])
SHOWN = [column for column in COLUMNS if column not in ("low", "high", "std_ratio", "twin_ratio", "least_ratio")]


def arguments():
    parser = argparse.ArgumentParser(description=__doc__, formatter_class=argparse.RawDescriptionHelpFormatter)
    parser.add_argument("bench", help="the program of the pointers")
    parser.add_argument("program", help="the program that is measured")
    parser.add_argument("workloads", nargs="*", help="all that `servo` has, if none is named")
    parser.add_argument("--script", nargs=5, action="append", default=[],
                        metavar=("KIND", "SIZE", "FILE", "PEER", "PROGRAM"), help="also a script, run by these two")
    parser.add_argument("--goals", required=True, help="lines WORKLOAD and GOAL with a tab between them: a ratio to"
                        " `servo`, as 1.05, to `twin`, as 1.05 twin, or 1.50 ns")
    parser.add_argument("--most", type=int, default=31, help="the most rounds, if fewer do not tell")
    parser.add_argument("--most-seconds", type=float, default=12, help="after which no round follows the first nine")
    parser.add_argument("--table", help="a file for the figures, a line a workload, with tabs")
    return parser.parse_args()


def read_goals(path):
    """The goal of each workload: the figure that is judged, the most that it may be, and the goal's text."""
    found = {}
    with open(path, encoding="utf-8") as file:
        for line in file:
            name, goal = line.rstrip("\n").split("\t")
            most, _, of = goal.partition(" ")
            of = {"": "ratio", "ns": "program_ns", "twin": "twin_ratio"}[of]
            found[name] = (of, float(most), goal)
    return found


def one_round(workload, backward):
    """A run of each program. Those that are compared are neighbours, and every other round goes backward."""
    turns = ["control", PEERS[0], "program"] + workload.peers[:0:-1]
    order = turns[::-1] if backward else turns
    return {who: workload.measure(PEERS[0] if who == "control" else who) for who in order}


def of_rounds(workload, rounds):
    """What each round gave for each figure that has a median."""
    def ratios(one, other):
        return [ratio(runs[one].elapsed, runs[other].elapsed) for runs in rounds]

    found = {who + "_ns": [runs[who].elapsed / workload.count * 1e9 for runs in rounds] for who in workload.commands}
    found.update({peer + "_ratio": ratios("program", peer) for peer in workload.peers[1:]})
    return found | {"ratio": ratios("program", PEERS[0]), "control": ratios("control", PEERS[0])}


def figures_of(workload, rounds, goal):
    """The figures of one workload, with the verdict."""
    found = of_rounds(workload, rounds)
    figures = {"rounds": len(rounds), "verdict": "no goal"} | {name: median(values) for name, values in found.items()}
    figures["low"], figures["high"] = middle_half(found["ratio"])
    figures["control_from"], figures["control_to"] = interval(found["control"])
    figures["least_ratio"] = ratio(*(least([runs[who] for runs in rounds]) for who in ("program", PEERS[0])))
    if goal:
        of, most, text = goal
        judged = interval(found[of])
        figures |= {"goal": text, "judged_from": judged[0], "judged_to": judged[1]}
        figures["verdict"] = verdict(figures, most)
    return figures


def verdict(figures, most):
    """Whether the figure that is judged is at most so much."""
    if not figures["control_from"] - NOISE <= 1 <= figures["control_to"] + NOISE:
        return "busy"
    if figures["judged_to"] <= most:
        return "met"
    return "missed" if figures["judged_from"] > most else "at the goal"


def measured(workload, goal, asked):
    """The figures of one workload, of as many rounds as the verdict needs and the time allows."""
    end = time.monotonic() + asked.most_seconds
    rounds = [one_round(workload, k % 2) for k in range(FEWEST)]
    while True:
        figures = figures_of(workload, rounds, goal)
        is_told = len(rounds) >= ENOUGH and figures["verdict"] not in UNTOLD
        if is_told or len(rounds) >= asked.most or time.monotonic() >= end:
            return figures
        rounds.append(one_round(workload, len(rounds) % 2))


def cells(figures, columns):
    found = (figures.get(column, "") for column in columns)
    return [f"{figure:.3f}" if isinstance(figure, float) else str(figure) for figure in found]


def shown(texts):
    print(*(f"{text:>12}" for text in texts), flush=True)


def write_table(path, rows):
    with open(path, "w", encoding="utf-8") as file:
        for row in [COLUMNS, *(cells(figures, COLUMNS) for figures in rows)]:
            print(*row, sep="\t", file=file)


def chosen(asked):
    """The workloads that were asked for, and how many names there are none of."""
    bench, program = os.path.abspath(asked.bench), os.path.abspath(asked.program)
    known = workloads_of(bench)
    names = asked.workloads or known
    unknown = [name for name in names if name not in known]
    for name in unknown:
        print(f"{name} is none of {PEERS[0]}")
    found = [Workload(bench, program, name, known[name]) for name in names if name in known]
    return found + [Script(*words) for words in asked.script], len(unknown)


def main():
    asked = arguments()
    goals = read_goals(asked.goals)
    workloads, wrong = chosen(asked)
    rows = []
    shown(SHOWN)
    for workload in workloads:
        complaint = workload.wrong()
        if complaint:
            print(f"{workload.name} {complaint}")
            wrong += 1
            continue
        has_threads = workload.name.endswith("-4")
        os.sched_setaffinity(0, PROCESSORS if has_threads else {max(PROCESSORS)})
        workload.prepare()
        rows.append({"workload": workload.name} | measured(workload, goals.get(workload.name), asked))
        shown(cells(rows[-1], SHOWN))
    if asked.table:
        write_table(asked.table, rows)
    verdicts = [figures["verdict"] for figures in rows]
    met, missed, at_goal, busy = (verdicts.count(word) for word in ("met", "missed") + UNTOLD)
    print(f"{met} goals met, {missed} missed, {at_goal} at the goal, {busy} busy")
    sys.exit(2 if wrong else 1 if missed else 3 if at_goal or busy else 0)


if __name__ == "__main__":
    main()
