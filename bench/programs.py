"""How each program runs a workload or a script."""
import os
import subprocess
import tempfile

from measure import Run, least, timed

PEERS = ["servo", "std", "twin"]
SECONDS = 0.12  # about what a run takes


def places(program):
    """Where the program was linked: as it is, and 16 bytes further."""
    return [place for place in (program, program + ".moved") if os.path.exists(place)]


class Workload:
    """One workload, as each program runs it."""

    def __init__(self, bench, program, name, known):
        self.name = name
        self.units, self.iterations, self.peers = known
        self.commands = {peer: [bench, peer, name] for peer in self.peers}
        self.commands["program"] = [program, name]

    def place(self, who):
        """Chooses the place where this program is faster."""
        program, *words = self.commands[who]
        taken = {}
        for place in places(program):
            self.commands[who] = [place, *words]
            taken[place] = least([self.run(who, self.iterations) for _ in range(3)])
        self.commands[who] = [min(taken, key=taken.get), *words]

    def wrong(self):
        """What is wrong with the program's checksum, or None."""
        few = str(min(self.iterations, 1000))
        found = {who: set() for who in self.commands}
        for who, (program, *words) in self.commands.items():
            for place in places(program):
                done, _ = timed([place, *words, few])
                found[who].add(done.stdout if done.returncode == 0 else None)
        if None in found["program"]:
            return "does not run"
        return None if len(set.union(*found.values())) == 1 else "has another checksum"

    def run(self, who, iterations):
        return Run(*(timed(self.commands[who] + [str(count)])[1] for count in (0, iterations)))

    def prepare(self):
        """Chooses the iterations. A long preparation wants more of them, or its noise would drown them."""
        runs = [[self.run(who, self.iterations) for _ in range(3)] for who in (PEERS[0], "program")]
        wanted = max(SECONDS, 2 * min(run.none for run in runs[0]))
        taken = max(least(of_one) for of_one in runs)
        self.iterations = max(1, round(self.iterations * wanted / max(taken, 1e-4)))
        self.count = self.units * self.iterations
        for who in self.commands:
            self.place(who)

    def measure(self, who):
        return self.run(who, self.iterations)


class Script:
    """A script, as the program and its peer run it."""

    def __init__(self, kind, size, script, peer, program):
        self.name = "script-" + kind
        self.script = script
        self.peers = PEERS[:1]
        programs = {PEERS[0]: peer, "program": program}
        self.commands = {who: [os.path.abspath(path), kind, size] for who, path in programs.items()}
        with open(script, "rb") as file:
            self.count = file.read().count(b"\n")

    def run(self, who, script, made):
        with open(script, "rb") as given:
            made.seek(0)
            made.truncate()
            return timed(self.commands[who], given, made)

    def wrong(self):
        found = set()
        for who in self.commands:
            with tempfile.TemporaryFile() as made:
                status = self.run(who, self.script, made)[0].returncode
                made.seek(0)
                found.add((status, made.read()))
        return None if len(found) == 1 else "has another output or status"

    def prepare(self):
        pass

    def measure(self, who):
        with tempfile.TemporaryFile() as made:
            return Run(*(self.run(who, script, made)[1] for script in (os.devnull, self.script)))


def workloads_of(bench):
    """The units, the iterations and the pointers of each workload."""
    listed = subprocess.run([bench, "list"], capture_output=True, text=True, check=True).stdout
    rows = [line.split() for line in listed.splitlines()]
    return {name: (int(units), int(iterations), peers.split(",")) for name, units, iterations, peers in rows}
