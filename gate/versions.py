#!/usr/bin/env python3
"""Runs `collection_scripts` on the scripts of examples/collections, and compares it with models of its collections on
random scripts, on long scripts that show how many items a call clones, and on a small stack. All items have to be
dropped, and no block may leak. It ends at the first script that differs.

With --refused it makes each allocation of a few scripts fail in turn, and prints the call that failed. Such a call has
to leave each version unchanged.

    gate/versions.py
    gate/versions.py --refused
"""
import argparse
import os
import random
import re
import resource
import subprocess
import sys
import tempfile
from pathlib import Path

from models import REFUSED, Map, Sequence
from tree_models import Interner, Tree

ROOT = Path(__file__).resolve().parent.parent
PROGRAM = ROOT / "crates" / "collection_scripts" / "out" / "collection_scripts"
SEEDS, STEPS, KEPT = 10, 10_000, 500
MODELS = {"sequence": Sequence, "map": Map, "tree": Tree, "interner": Interner}


class Differs(Exception):
    """A run that is not as it should be."""


def ran(library, lines, request=0, stack=None):
    """The answers, the report on memory, and the status."""
    environment = {**os.environ, "LD_PRELOAD": library, "REFUSED_REQUEST": str(request)}
    limit = (lambda: resource.setrlimit(resource.RLIMIT_STACK, (stack, stack))) if stack else None
    run = subprocess.run([PROGRAM], input="\n".join(lines), capture_output=True, text=True, env=environment,
                         preexec_fn=limit, check=False)
    return run.stdout.splitlines(), run.stderr, run.returncode


def compare(model, lines, answers):
    """Ends at the first call that the model answers otherwise. Returns the calls that failed."""
    refused = []
    for number, (line, answer) in enumerate(zip(lines, answers), 1):
        refused += [line] * (answer in REFUSED)
        if (wanted := model.answer(line, answer)) != answer:
            raise Differs(f"line {number}, {line}: {answer[:300]}, and not {wanted[:300]}")
    if len(answers) != len(lines) + 1 or answers[-1:] != [str(model.made)]:
        raise Differs(f"{answers[-1:]} of {model.made} items ended")
    return refused


def settled(library, lines, request=0, stack=None):
    """The answers of a run that leaks no block, and whether an allocation failed."""
    answers, told, status = ran(library, lines, request, stack)
    is_refused = "memory: refused" in told
    if not told.endswith("d, 0 kept\n") or status and not (is_refused and not answers):
        raise Differs(f"{told.strip()}; status {status}")
    return answers, is_refused


def checked(library, kind, lines, request=0, stack=None):
    """The call that failed, if one did, and whether an allocation failed."""
    answers, is_refused = settled(library, [kind, *lines], request, stack)
    if is_refused and not answers:
        return "the set-up", True
    refused = compare(MODELS[kind.split(" ")[0]](), lines, answers)
    if len(refused) > is_refused:
        raise Differs(f"refused without a reason: {refused}")
    return "".join(refused), is_refused


def check_examples(library):
    """Each script prints its expected lines."""
    for path in (ROOT / "examples" / "collections").iterdir():
        if not path.suffix:
            answers, _ = settled(library, path.read_text().splitlines())
            if answers != path.with_suffix(".stdout").read_text().splitlines():
                raise Differs(f"{path.name}: {answers}")


def draw(kind, seed):
    """A random script."""
    chance, model, lines = random.Random(seed), MODELS[kind](), []
    for step in range(STEPS):
        lines.append(model.draw(chance, step))
        model.answer(lines[-1], None)
        if kind not in SCRIPTS and step % KEPT == 0:
            lines += ["keep", f"back {chance.randrange(len(model.kept) + 1)}"]
            model.answer(lines[-2], None), model.answer(lines[-1], None)
    places = [chance.randrange(2_000) for _ in range(STEPS // KEPT)]
    return lines + [line.format(at=at, version=version) for version, at in enumerate(places) for line in model.WHOLE]


def copies_of(library, lines):
    """How many items were copied between the first `tally` of the script and the second, and so on."""
    answers, _ = settled(library, lines)
    copies = [int(re.findall(r"\d+", answer)[0]) for line, answer in zip(lines[1:], answers) if line == "tally"]
    return [after - before for before, after in zip(copies[::2], copies[1::2])]


def check_copies(library, kind):
    """A lone version copies nothing. Another one copies a leaf of 64 items for a change, and each leaf once in all. A
    cut may join each part of its leaf with a neighbour of up to 32 items, which it copies too."""
    spread = [place * 618_033 % 100_000 for place in range(100_000)]
    places = [2 * key if kind == "map" else key % (at + 1) for at, key in enumerate(spread)]
    made = [kind, *(f"insert {place} 7" for place in places)]
    removed = ["tally", *(f"remove {place}" for place in reversed(places)), "tally"]
    changes = {"insert": 64} if kind == "map" else {"insert": 64, "split": 128, "truncate": 128}
    changed = [line for at in range(0, 100_000, 999) for change in changes
               for line in ("back 0", "tally", f"{change} {at}", "tally")]
    found = copies_of(library, [*made, *removed]) + copies_of(library, [*made, "keep", *changed, "back 0", *removed])
    most = [0, *[*changes.values()] * 101, 100_000]
    if len(found) != len(most) or any(count > limit for count, limit in zip(found, most)):
        raise Differs(f"{kind}: {found} copies")


def thin_branches(last, first):
    """Takes an item out at either end of a tree of two branches, of nine leaves and of four. The one with four is at
    that end, and is joined with the other before."""
    return ["fill 1088", "split 768", "keep", last, "print", "back 2", "print",
            "fill 1088", "split 256", "swap", "keep", first, "print", "back 3", "print"]


# For each collection the scripts that make two versions of it, calls on each of them beside the other one, and what
# comes then.
CHANGES = {
    "sequence": (
        # Of two leaves, of one item and of 64. The first goes out whole with its item, or is joined with the second
        # before, and the second becomes two if an item goes in.
        ["fill 64", *(f"push {item}" for item in range(64, 96)), *["pop_front"] * 31],
        # Of two leaves, of 32 items and of 16. The second is joined with the first one if it loses an item.
        ["fill 64", *["pop"] * 16],
        ["insert 0 9", "insert 40 9", "insert 99 9", "push 9", "push_front 9", "set 40 9", "add 40 9", "remove 0",
         "remove 40", "remove 99", "pop", "pop_front", "split 1", "split 40", "split 99", "append", "replace 20 40",
         "replace 40 99", "truncate 1", "truncate 40", "truncate 99", "retain 40", "extend 100", "exchange 3 40",
         "exchange 3 99"],
        # A pop of no items requests no memory.
        [*thin_branches("pop", "pop_front"), "clear", "pop", "pop_front"]),
    "map": (
        # Of one leaf, which is full.
        [f"insert {2 * half} {half}" for half in range(64)],
        # Of two leaves, of 44 entries and of 5. The second is joined with the first one if it loses an entry.
        [*(f"insert {2 * half} {100 + half}" for half in range(65)), *(f"remove {2 * half}" for half in range(16))],
        ["insert 1 9", "insert 63 9", "insert 127 9", "remove 32", "remove 62", "remove 64", "remove 128", "add 32 9",
         "add 128 9", "alter 32 9", "alter 33 9", "split 33", "split 64", "pop_first", "pop_last", "retain 64",
         "append", "union", "both", "rest", "changes"],
        [*thin_branches("pop_last", "pop_first"), "clear", "pop_first", "pop_last"]),
}
SCRIPTS = {
    # Of two leaves, of 32 items each. The first push gets room for 64 items in the last leaf, which the next ones fill.
    # The one after these begins a leaf with room for 64 items, so that the others request no memory. The second word
    # of the first line names the run alone.
    "sequence pushed": ["fill 64", *["push 9"] * (32 + 1 + 9)],
    "tree": ["insert 1 0", "insert 2 1", "set 9 1", "put 1", "insert 3 2 1", "remove 0", "add 5 0 1", "add 5 0 3",
             "values", "paths", "undo", "values", "redo", "versions", "values"],
    "interner": [*(f"intern {number}" for number in range(10)), "intern 0", "give 0", "give 10", "block 0", "block 11",
                 "print"],
    # With room for its texts it requests memory for these and their blocks alone, and for none that is there.
    "interner 12": [*(f"intern {number}" for number in range(12)), "intern 0"],
}


def refusal_script(kind):
    if kind in SCRIPTS:
        return SCRIPTS[kind]
    first, second, calls, then = CHANGES[kind]
    turns = [[f"back {1 - own}", "swap", f"back {own}", call, "print", "swap", "print"]
             for own in (0, 1) for call in calls]
    return [*first, "keep", "drop", *second, "keep", *sum(turns, []), *then, "back 0", "print", "back 1", "print"]


def check_refusals(library, kind):
    """Makes each allocation of the script fail in turn, and prints the call that failed. Some calls succeed anyway."""
    for request in range(1, 10_000):
        refused, is_refused = checked(library, kind, refusal_script(kind), request)
        if not is_refused:
            return
        print(f"collection_scripts {kind}: refused, 0 kept" + (f": {refused}" if refused else ""))


def main():
    parser = argparse.ArgumentParser(description=__doc__, formatter_class=argparse.RawDescriptionHelpFormatter)
    parser.add_argument("--refused", action="store_true", help="make each allocation fail in turn")
    refuses = parser.parse_args().refused
    if not PROGRAM.exists():
        sys.exit("versions: run `rt run` in crates/collection_scripts first")
    with tempfile.TemporaryDirectory() as folder:
        library = f"{folder}/memory.so"
        subprocess.run(["cc", "-O2", "-shared", "-fPIC", "-o", library, ROOT / "gate" / "refuse_request.c"], check=True)
        if refuses:
            for kind in [*CHANGES, *SCRIPTS]:
                check_refusals(library, kind)
            return 0
        for kind in MODELS:
            for seed in range(SEEDS):
                checked(library, kind, draw(kind, seed))
        for kind in ("sequence", "map"):
            check_copies(library, kind)
        checked(library, "sequence", ["fill 1000000", "ends"], stack=0x40000)
        check_examples(library)
    print(f"versions: each example, {SEEDS * len(MODELS)} random scripts of {STEPS} calls, copies of 2 collections and"
          " a small stack as told")
    return 0


if __name__ == "__main__":
    sys.exit(main())
