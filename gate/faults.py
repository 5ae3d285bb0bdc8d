#!/usr/bin/env python3
"""faults.py FOLDER [CRATE..]: prints which wrong bodies no script of a collection detects, and no test of these crates.

FOLDER/CRATE/NAME.edit is a fault. It is written as a mutant, with one pair of texts. The old text is an expression or
ends with a semicolon. In a copy of the repository each fault becomes `if faults::is(N) { new } else { old }`, so that
one build without proofs has all faults, and a run chooses one. A fault is detected if a script prints, ends, or
requests memory otherwise than without the fault, if the address checker stops the script, or if a test fails.

    gate/faults.py /tmp/faults test_sharing
"""
import os
import re
import subprocess
import sys
import tempfile
from concurrent.futures import ThreadPoolExecutor
from pathlib import Path

import versions

ROOT = Path(__file__).resolve().parent.parent
SECONDS = 300
# Of each random script, which the address checker slows.
versions.STEPS = 1_000
RUST = """#![tactic(auto)]
unsafe extern "C" {
    safe fn fault_is(number: u32) -> bool;
}
pub fn is(number: u32) -> bool {
    fault_is(number)
}
"""


def read_fault(path):
    """The file of a fault, its old text and its new one."""
    lines = dict(line.split(": ", 1) for line in path.read_text().splitlines() if re.match("(file|old|new): ", line))
    return f"crates/{path.parent.name}/{lines['file']}", lines["old"], lines["new"]


def plant(copy, faults):
    """Puts each fault beside the text that it replaces. A second fault of one text is in the `else` of the first."""
    bodies = {}
    for number, path in enumerate(faults, 1):
        file, old, new = read_fault(path)
        if (ROOT / file).read_text().count(old) != 1:
            sys.exit(f"faults: {path}: the old text is not exactly once in {file}")
        body = bodies.get((file, old), old)
        bodies[file, old] = f"if faults::is({number}) {{ {new} }} else {{ {body} }}"
    for file in {file for file, _ in bodies}:
        texts = {old: body if old.endswith(";") else f"({body})"
                 for (path, old), body in bodies.items() if path == file}
        pattern = "|".join(map(re.escape, sorted(texts, key=len, reverse=True)))
        text = re.sub(pattern, lambda found: texts[found[0]], (copy / file).read_text())
        (copy / file).write_text(text)


def make_copy(copy, faults):
    """The repository with the faults, and with the crate that chooses one below each other crate."""
    files = subprocess.run(["git", "ls-files", "-z"], cwd=ROOT, capture_output=True, check=True).stdout
    subprocess.run(["xargs", "-0", "cp", "--parents", "-t", copy], cwd=ROOT, input=files, check=True)
    plant(copy, faults)
    rows = (copy / "crates.txt").read_text()
    (copy / "crates.txt").write_text(re.sub(r"^(\w[^:]*:)", r"\1 faults", rows, flags=re.M) + "faults:\n")
    chooser = copy / "crates" / "faults"
    for file, text in {"src/lib.rt": RUST, "c/faults.c": (ROOT / "gate" / "chosen_fault.c").read_text()}.items():
        (chooser / file).parent.mkdir(parents=True)
        (chooser / file).write_text(text.replace("COPY", f"{copy}/program"))


def build(copy, crate, *words):
    """The program of the crate, or of its tests."""
    environment = {**os.environ, "RT_ALLOW_C": "1"}
    command = ["rt", "try", *words, "--seconds", str(SECONDS)]
    # A list of the tests before has copied their program again.
    (copy / "program").unlink(missing_ok=True)
    said = subprocess.run(command, cwd=copy / "crates" / crate, input="", text=True, stdout=subprocess.PIPE,
                          stderr=subprocess.STDOUT, env=environment, check=False).stdout
    if not (copy / "program").exists():
        sys.exit(f"faults: {crate} was not built:\n{said}")
    return (copy / "program").rename(copy / crate)


def ran(words, fault, script=None):
    """How a run ends: its status, and of a script what it prints and what it reports of memory."""
    environment = {"FAULT": str(fault), "PATH": os.environ["PATH"]}
    try:
        run = subprocess.run(words, input=(script or "").encode(), capture_output=True, env=environment,
                             timeout=SECONDS, check=False)
    except subprocess.TimeoutExpired:
        return None
    return run.returncode if script is None else (run.returncode, run.stdout, run.stderr.rpartition(b"memory: ")[2])


def scripts():
    """The examples of collections, the scripts whose allocations fail in turn, and random scripts."""
    for path in sorted((ROOT / "examples" / "collections").glob("*.stdout")):
        yield path.stem, path.with_suffix("").read_text()
    for kind in (*versions.CHANGES, *versions.SCRIPTS):
        yield f"calls of {kind}", "\n".join([kind, *versions.refusal_script(kind)])
    for kind in versions.MODELS:
        yield f"random calls of {kind}", "\n".join([kind, *versions.draw(kind, 1)])


def tests(program):
    """Each test, which has to pass if no fault is chosen."""
    listed = subprocess.run([program, "--list"], capture_output=True, text=True, check=True).stdout
    for name in re.findall(r"^(\S+): test$", listed, re.M):
        if ran([program, name], 0) != 0:
            sys.exit(f"faults: {name} fails without a fault")
        yield [program, name]


def told_by(program, wanted, tried, fault):
    """The scripts that detect the fault, or else the first test that does."""
    names = [name for name, (script, run) in wanted.items() if ran([program], fault, script) != run]
    return names or [words[1] for words in tried if ran(words, fault) != 0][:1]


def main():
    faults = sorted(Path(sys.argv[1]).glob("*/*.edit"))
    with tempfile.TemporaryDirectory() as folder, ThreadPoolExecutor(os.cpu_count()) as pool:
        copy = Path(folder)
        make_copy(copy, faults)
        program = build(copy, "collection_scripts")
        tried = [words for crate in sys.argv[2:] for words in tests(build(copy, crate, "--test"))]
        wanted = {name: (script, ran([program], 0, script)) for name, script in scripts()}
        told = pool.map(lambda fault: told_by(program, wanted, tried, fault), range(1, len(faults) + 1))
        untold = 0
        for path, names in zip(faults, told):
            untold += not names
            print(f"{path.parent.name} {path.stem}: {', '.join(names) or 'detected by nothing'}", flush=True)
    print(f"faults: {untold} of {len(faults)} detected by nothing")


if __name__ == "__main__":
    if sys.argv[1:] in (["-h"], ["--help"]):
        print(__doc__)
        sys.exit()
    sys.exit(main() if sys.argv[1:] and not sys.argv[1].startswith("-") else __doc__)
