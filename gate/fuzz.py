#!/usr/bin/env python3
"""Runs `arcbench` on random scripts, valid and invalid ones. It compares the output with reference models that are
written here from examples/README.md: a core that has live handles and no count, and a table whose slots share blocks.
It ends at the first script that differs.

    gate/fuzz.py 20000 64    # 20,000 scripts, the same for the same seed 64
"""
import argparse
import random
import subprocess
import sys
from pathlib import Path
from types import SimpleNamespace

PROGRAM = Path(__file__).resolve().parent.parent / "crates" / "arcbench" / "out" / "arcbench"
GREATEST_LIMIT = 2**63 - 1
GREATEST_NUMBER = 2**32 - 1


def handle_of(holder):
    return SimpleNamespace(holder=holder, borrowers=set(), is_written=False, is_sole=False)


class Core:
    """One block, its owners and its live handles."""

    # Each word, and what its numbers are: owners, handles and values.
    LINES = {
        "clone": "oh", "raise": "o", "quit": "o", "drop": "oh", "lower": "o", "mark": "oh", "unique": "oh",
        "static": "oh", "getmut": "oh", "write": "ohv", "endwrite": "oh", "load": "oh", "lend": "oho",
        "return": "oh", "give": "oho", "intounique": "oh", "share": "oh",
    }

    def __init__(self, owners, limit=GREATEST_LIMIT):
        self.owners = owners
        self.limit = limit
        self.value = 5
        self.handles = {0: handle_of(0)}
        self.births = 1
        self.is_marked = False
        # What an owner is in the middle of: ("clone", live handles when it last read) or ("drop", handle).
        self.busy = {}

    def answer(self, word, owner, *rest):
        if owner >= self.owners or not self.permits(word, owner, *rest):
            return "barred"
        return getattr(self, f"do_{word}")(owner, *rest) or "done"

    def permits(self, word, owner, number=None, to=0):
        if owner in self.busy or word in ("raise", "quit", "lower"):
            return word in {"clone": ("raise", "quit"), "drop": ("lower",)}.get(self.busy.get(owner, " ")[0], ())
        if number not in self.handles:
            return False
        handle = self.handles[number]
        is_lent_to = owner in handle.borrowers
        is_held = handle.holder == owner
        is_sole = is_held and handle.is_sole
        is_quiet = not handle.is_written and not handle.is_sole
        is_used = (is_held or is_lent_to) and is_quiet
        is_taken = is_held and not handle.borrowers and is_quiet
        is_other = to < self.owners and to != owner
        return {
            "clone": is_used, "mark": is_used, "unique": is_used, "static": is_used, "load": is_used or is_sole,
            "getmut": is_taken, "intounique": is_taken, "drop": is_taken or is_sole,
            "give": is_other and (is_taken or is_sole),
            "lend": is_other and is_held and is_quiet and to not in handle.borrowers,
            "return": is_lent_to, "write": is_held and not is_quiet, "endwrite": is_held and handle.is_written,
            "share": is_sole,
        }[word]

    def is_full(self):
        return not self.is_marked and len(self.handles) == self.limit

    def is_alone(self):
        return not self.is_marked and len(self.handles) == 1

    def born(self, owner):
        self.handles[self.births] = handle_of(owner)
        self.births += 1
        return f"born {self.births - 1}"

    def do_clone(self, owner, _handle):
        if self.is_marked or self.is_full():
            return "full" if self.is_full() else self.born(owner)
        self.busy[owner] = ("clone", len(self.handles))
        return "pending"

    def do_raise(self, owner):
        if not self.is_marked and not self.is_full() and len(self.handles) != self.busy[owner][1]:
            self.busy[owner] = ("clone", len(self.handles))
            return "pending"
        del self.busy[owner]
        return "full" if self.is_full() else self.born(owner)

    def do_quit(self, owner):
        del self.busy[owner]
        return "quit"

    def do_drop(self, owner, handle):
        if self.is_marked:
            del self.handles[handle]
            return "ended"
        self.busy[owner] = ("drop", handle)
        return "pending"

    def do_lower(self, owner):
        del self.handles[self.busy.pop(owner)[1]]
        return f"given up {self.value}" if not self.is_marked and not self.handles else "ended"

    def do_mark(self, _owner, _handle):
        self.is_marked = True
        return "marked"

    def do_unique(self, _owner, _handle):
        return f"is {self.is_alone()}".lower()

    def do_static(self, _owner, _handle):
        return f"is {self.is_marked}".lower()

    def do_getmut(self, _owner, handle):
        self.handles[handle].is_written = self.is_alone()
        return "alone" if self.is_alone() else "shared"

    def do_intounique(self, _owner, handle):
        self.handles[handle].is_sole = self.is_alone()
        return "sole" if self.is_alone() else "shared"

    def do_share(self, _owner, handle):
        self.handles[handle].is_sole = False

    def do_write(self, _owner, _handle, value):
        self.value = value

    def do_endwrite(self, _owner, handle):
        self.handles[handle].is_written = False

    def do_load(self, _owner, _handle):
        return f"value {self.value}"

    def do_lend(self, _owner, handle, to):
        self.handles[handle].borrowers.add(to)

    def do_return(self, owner, handle):
        self.handles[handle].borrowers.remove(owner)

    def do_give(self, _owner, handle, to):
        self.handles[handle].holder = to

    def number(self, kind, chance):
        if kind == "o":
            return chance.randrange(self.owners + (chance.random() < 0.05))
        if kind == "h":
            if chance.random() < 0.9:
                return chance.choice(list(self.handles) or [0])
            return chance.randrange(self.births + 1)
        return chance.choice([0, 1, 7, GREATEST_NUMBER, chance.randrange(GREATEST_NUMBER)])


class Table:
    """Slots, each with a block or nothing. A block is shared by the slots that have it."""

    # Each word, and what its numbers are: slots and values.
    LINES = {
        "new": "sv", "clone": "ss", "drop": "s", "getmut": "sv", "makemut": "sv", "own": "s", "mark": "s", "raw": "s",
        "ptreq": "ss", "same": "ss", "get": "s", "intounique": "sv",
    }

    def __init__(self, slots):
        self.slots = [None] * slots

    def answer(self, word, *numbers):
        slots = [number for number, kind in zip(numbers, self.LINES[word]) if kind == "s"]
        if any(slot >= len(self.slots) for slot in slots):
            return "no slot"
        reads = {"new": [], "clone": slots[:1]}.get(word, slots)
        if any(self.slots[slot] is None for slot in reads):
            return "empty"
        return getattr(self, f"do_{word}")(*numbers) or "done"

    def do_new(self, slot, value):
        self.slots[slot] = SimpleNamespace(value=value, is_marked=False)

    def do_clone(self, slot, other):
        self.slots[other] = self.slots[slot]

    def do_drop(self, slot):
        self.slots[slot] = None

    def is_alone(self, slot):
        block = self.slots[slot]
        return not block.is_marked and sum(other is block for other in self.slots) == 1

    def do_getmut(self, slot, value):
        return self.do_makemut(slot, value) if self.is_alone(slot) else "shared"

    do_intounique = do_getmut

    def do_makemut(self, slot, value):
        if not self.is_alone(slot):
            self.do_new(slot, value)
        self.slots[slot].value = value

    def do_own(self, slot):
        self.do_makemut(slot, self.slots[slot].value)

    def do_mark(self, slot):
        self.slots[slot].is_marked = True

    def do_raw(self, _slot):
        pass

    def do_ptreq(self, slot, other):
        return f"is {self.slots[slot] is self.slots[other]}".lower()

    def do_same(self, slot, other):
        return f"is {self.slots[slot].value == self.slots[other].value}".lower()

    def do_get(self, slot):
        return f"value {self.slots[slot].value}"

    def number(self, kind, chance):
        if kind == "s":
            return chance.randrange(len(self.slots) + (chance.random() < 0.05) or 1)
        return chance.choice([0, 7, GREATEST_NUMBER, chance.randrange(GREATEST_NUMBER)])


class TableBeside(Table):
    """A table without the call that the ported crate does not have."""

    LINES = {word: numbers for word, numbers in Table.LINES.items() if word != "intounique"}


def broken(line, chance):
    """A line that is none of the language, by one fault."""
    word, *numbers = line.split(b" ")
    return chance.choice([
        b"", b" " + line, line + b" ", line.replace(b" ", b"  ", 1), line + b"\r", line + b" 0 0 0", word,
        line.upper(), b"x" + line, line.replace(numbers[0], b"0" + numbers[0], 1), word + b" 4294967296",
        line.replace(b" ", b"\t", 1), b"\0", b"\xff" + line, word + b" -1" + b" 0" * (len(numbers) - 1),
        word + b" " + b"9" * 30,
    ])


def play(machine, chance):
    """A script for the machine, what is printed for it, and its status. The last line may lack its line feed."""
    lines, answers = [], []
    for number in range(1, chance.randrange(1, 60) + 1):
        word = chance.choice(list(machine.LINES))
        numbers = [machine.number(kind, chance) for kind in machine.LINES[word]]
        lines.append(" ".join([word, *map(str, numbers)]).encode())
        if chance.random() < 0.004:
            lines[-1:] = [broken(lines[-1], chance), b"load 0 0"]
            return b"\n".join(lines), [*answers, f"fault: line {number}"], 2
        answers.append(machine.answer(word, *numbers))
    return b"\n".join(lines) + b"\n" * (chance.random() < 0.8), answers, 0


def draw(chance, is_beside):
    """The words of a call, and the machine that it opens."""
    if not is_beside and chance.random() < 0.6:
        owners, limit = chance.choice([1, 2, 3, 5]), chance.choice([None, 1, 2, 3, 4])
        return ["core", str(owners)] + [str(limit)] * (limit is not None), Core(owners, limit or GREATEST_LIMIT)
    slots = chance.choice([0, 1, 2, 3, 5])
    return ["table", str(slots)], (TableBeside if is_beside else Table)(slots)


def arguments():
    parser = argparse.ArgumentParser(description=__doc__, formatter_class=argparse.RawDescriptionHelpFormatter)
    parser.add_argument("scripts", nargs="?", type=int, default=2000)
    parser.add_argument("seed", nargs="?", type=int, default=random.randrange(2**32))
    parser.add_argument("--beside", metavar="PROGRAM", help="compares scripts of a table, and none of a core, with what"
                        " this program prints too: OUT/script of bench/build_peers.sh, over the ported crate's `Arc`")
    return parser.parse_args()


def main():
    asked = arguments()
    chance = random.Random(asked.seed)
    programs = [PROGRAM, asked.beside] if asked.beside else [PROGRAM]
    print(f"fuzz: seed {asked.seed}")
    for number in range(asked.scripts):
        words, machine = draw(chance, asked.beside)
        script, answers, status = play(machine, chance)
        wanted = ("".join(answer + "\n" for answer in answers).encode(), b"", status)
        for program in programs:
            ran = subprocess.run([program, *words], input=script, capture_output=True)
            got = (ran.stdout, ran.stderr, ran.returncode)
            if got != wanted:
                print(f"fuzz: script {number} of seed {asked.seed} differs: {program} {' '.join(words)}")
                print(f"-- script\n{script!r}\n-- wanted\n{wanted!r}\n-- got\n{got!r}")
                return 1
    beside = f" and by {asked.beside}" if asked.beside else ""
    print(f"fuzz: {asked.scripts} scripts are answered as by the reference models{beside}")
    return 0


if __name__ == "__main__":
    sys.exit(main())
