#!/usr/bin/env python3
"""Checks the documents against the tree, and ends with 1 if one of these is wrong:

- each link leads to a file and a heading that exist, and if the link's text is code, the file has each of its names;
- a block of Rust names a file that contains the block, as ```rust crates/first_example/src/main.rt. A block without a
  name is in docs/LIMITS.md, and gate/elsewhere.sh shows that the checker rejects it;
- the output of a command on an example, as after `# prints:`, is the expected output of the example; a drawing of an
  example, as ```text examples/core/first, has its steps and answers, each in the column of its owner;
- CONTRIBUTING.md names only files that exist;
- the tables of docs/SPEED.md show each operation of bench/measured.tsv, maps.tsv and sequences.tsv once, with the least
  and the greatest of its figures, except for scripts that meet their goals, and its text has no other ratio;
- the table of speeds in README.md has ratios of these tables;
- bench/measured.tsv has each goal of bench/goals.tsv once and no other, with the verdict that follows from its figures,
  and so have the calls of maps and sequences; bench/README.md names the workloads whose goal is missed;
- each public function is called, as gate/called.py finds.

    gate/documents.py
"""
import argparse
import csv
import re
import runpy
import subprocess
import sys
from collections import Counter
from itertools import chain
from pathlib import Path

ROOT = Path(__file__).resolve().parent.parent
sys.path.append(str(ROOT / "bench"))
from called import uncalled
from compare import read_goals, verdict
goal_of = runpy.run_path(str(ROOT / "bench" / "collections.py"))["goal_of"]
LINK = re.compile(r"\[((?:[^\]\[]|\[[^\]]*\])+)\]\(([^)\s]+)\)")
UNREAD = re.compile(r"\]\[|^ *\[[^\]]+\]:|\]\([^)]*\s|<a\b", re.M)
PRINTS = re.compile(r"< examples/(\w+/\w+) +# prints: (.*)")
DRAWN = re.compile(r"```text examples/(core/\w+)\n(.*?)```", re.S)
STEP = re.compile(r"([a-z]+)((?: \d+)*): (\S+(?: \S+)*)")
QUOTE = re.compile(r"```rust ?(\S*)\n(.*?)```", re.S)
FENCE = re.compile(r"^ *```(.*)", re.M)
OPERATION = re.compile(r"`([\w-]+)`(?: of a `(\w+)`)?")
RATIO = re.compile(r"(?<![\d.])\d\.\d\d(?![\d.]*\d)")
FILE = re.compile(r"\b[\w/]+\.(?:rt|antt|edit|md|py|rs|sh|tsv|txt)\b")


def headings(text):
    """The anchors of a document's headings."""
    lines = re.sub(r"```.*?```", "", text, flags=re.S).splitlines()
    titles = [line.lstrip("#").strip().lower() for line in lines if line.startswith("#")]
    return {re.sub(r"\s", "-", re.sub(r"[^\w\s-]", "", title)) for title in titles}


def wrong_link(document, label, target):
    """What is wrong with a link, if anything is."""
    file, _, anchor = target.partition("#")
    path = (document.parent / file).resolve() if file else document
    if not path.exists():
        return "no such file"
    if anchor and anchor not in headings(path.read_text()):
        return "no such heading"
    names = re.findall(r"[A-Za-z_]\w*", " ".join(re.findall(r"`([^`]+)`", label)))
    source = path.read_text() if path.suffix in (".rt", ".antt") else label
    lacking = [name for name in names if not re.search(rf"\b{name}\b", source) and f"{name}.rt" != path.name]
    return f"the file has no {', '.join(lacking)}" if lacking else None


def drawn_steps(drawing):
    """The lines of the script that a drawing shows, and their answers."""
    head, *rows = drawing.splitlines()
    found = [step for row in rows for step in STEP.finditer(row)]
    owners = [re.sub(r"\D*", "", head[step.start():].partition("  ")[0]) for step in found]
    steps = [f"{step[1]} {owner}{step[2]}" for step, owner in zip(found, owners)]
    return [steps, [step[3] for step in found]]


def wrong_in(document, files):
    text = document.read_text()
    prose = re.sub(r"```.*?```", "", text, flags=re.S)
    for kind in FENCE.findall(text)[::2]:
        if not re.fullmatch(r"(rust|text)( \S+)*", kind):
            yield f"a fence of another kind than rust or text: {kind}"
    unlinked = LINK.sub("", text) if document.name == "CONTRIBUTING.md" else ""
    for name in FILE.findall(unlinked):
        if not any(f"/{file}".endswith(f"/{name}") for file in files):
            yield f"no such file: {name}"
    if UNREAD.search(re.sub(r"`[^`]*`", "", prose)):
        yield "a link has its target elsewhere, a title or a tag, so nothing checks it"
    for label, target in LINK.findall(prose):
        if not re.match(r"[a-z]+:", target) and (wrong := wrong_link(document, label, target)):
            yield f"[{label}]({target}): {wrong}"
    for file, quoted in QUOTE.findall(text):
        source = ROOT / file if file or document.name != "LIMITS.md" else document
        if not source.is_file() or quoted not in source.read_text():
            yield f"not in {file or 'a file that is named'}: {quoted.splitlines()[0]}"
    for name, printed in PRINTS.findall(text):
        expected = (ROOT / "examples" / f"{name}.stdout").read_text().splitlines()
        if printed != ", ".join(expected):
            yield f"the example {name} prints {', '.join(expected)}"
    for name, drawing in DRAWN.findall(text):
        example = ROOT / "examples" / name
        if drawn_steps(drawing) != [path.read_text().splitlines() for path in (example, Path(f"{example}.stdout"))]:
            yield f"the drawing of {name} has other steps or answers"


def nanoseconds(figure):
    digits = 0 if figure >= 100 else 1 if figure >= 1 else 2
    return f"{figure:.{digits}f}"


def ratio(figure):
    if figure < 0.001:
        return "<0.001"
    return f"{figure:.1g}" if figure < 0.1 else f"{figure:.2f}" if figure < 10 else f"{figure:.3g}"


# What a column of docs/SPEED.md shows: columns of the tables of bench/.
COLUMNS = {
    "ns": (("program_ns", "program"), nanoseconds),
    "÷ std": (("std_ratio", "/btree", "/vec"), ratio),
    "÷ original": (("ratio",), ratio),
    "÷ im": (("/im",), ratio),
}


def span(rows, names, shown):
    """The least and the greatest figure of the rows in these columns of bench/, or the one that there is."""
    found = [float(row[name]) for row in rows for name in names if row.get(name) not in (None, "", "-")]
    return " to ".join(dict.fromkeys(map(shown, (min(found), max(found))))) if found else "-"


# The rows of README's table of speeds: a table of bench/ and its column, and the workloads that the rows write out.
PEERS = {"std::sync::Arc": ("measured.tsv", "std_ratio"), "im::OrdMap": ("maps.tsv", "/im"),
         "im::Vector": ("sequences.tsv", "/im"), "BTreeMap": ("maps.tsv", "/btree"), "Vec": ("sequences.tsv", "/vec")}
WORKLOADS = {"new and drop": "new-drop", "make_mut in place": "make-mut-unique",
             "make_mut with a copy": "make-mut-shared", "clone and drop": "clone-drop",
             "clone and drop on four threads": "contend-4", "ptr_eq": "ptr-eq-same"}


def table(name):
    with open(ROOT / "bench" / name, encoding="utf-8", newline="") as file:
        return list(csv.DictReader(file, delimiter="\t"))


def measured_rows():
    """The rows of each operation, by its name and the collection that has it."""
    rows = {}
    for row in table("measured.tsv"):
        if row["verdict"] == "missed" or not row["workload"].startswith("script-"):
            rows[row["workload"], ""] = [row]
    for collection, name in ("TreeMap", "maps.tsv"), ("Sequence", "sequences.tsv"):
        for row in table(name):
            rows.setdefault((row["call"], collection), []).append(row)
    return rows


def wrong_speed():
    """The lines of the tables of docs/SPEED.md that bench/ has otherwise, the operations that no table or two tables
    show, and the ratios in the text that no table shows."""
    text = (ROOT / "docs" / "SPEED.md").read_text()
    rows, shown, heads = measured_rows(), Counter(), []
    for line in re.findall(r"^\|.*", text, re.M):
        first, *cells = [cell.strip(" *") for cell in line.strip("|").split("|")]
        if operation := OPERATION.match(first):
            shown[operation[1], operation[2] or ""] += 1
            found = rows.get((operation[1], operation[2] or ""), [])
            if cells != [span(found, *COLUMNS[head]) for head in heads]:
                yield line
        elif not first.startswith("-"):
            heads = cells
    yield from (" of a ".join(filter(None, name)) for name in rows if shown[name] != 1)
    cells = " ".join(re.findall(r"^\|.*", text, re.M))
    yield from {figure for figure in RATIO.findall(text) if figure not in RATIO.findall(cells)}


def wrong_goals(kind):
    """The calls of a collection with a verdict that is not that of the ratio. One shown as its goal may have either."""
    with open(ROOT / "bench" / f"{kind}.tsv", encoding="utf-8") as file:
        head, *rows = csv.reader(file, delimiter="\t")
    for row in rows:
        workload, items, call = row[:3]
        for place in range(head.index("goal"), len(head), 2):
            goal = goal_of(kind, int(items), call, head[place - 1][1:])
            verdicts = ["-"]
            if goal is not None:
                verdicts = ["met"] * (float(row[place - 1]) <= goal) + ["missed"] * (float(row[place - 1]) >= goal)
            if row[place] not in verdicts:
                yield f"{kind}.tsv: {workload} {items} {call} {head[place - 1]}"


def wrong_readme():
    """The ratios of README that bench/ has otherwise, and the rows that README lacks."""
    rows = dict(re.findall(r"^\| `([\w:]+)` \| ([^|\n]*\d\**) \|$", (ROOT / "README.md").read_text(), re.M))
    for peer, (name, column) in PEERS.items():
        said = re.findall(r"([\w ,]+) (\d[\d.]*(?: to [\d.]+)?)(?:;|$)", re.sub("[*`]", "", rows.get(peer, "")))
        for calls, figures in said or [("nothing", "")]:
            named = [WORKLOADS.get(call, call) for call in calls.strip().split(", ")]
            found = [row for row in table(name) if row.get("call", row["workload"]) in named]
            if span(found, [column], ratio) != figures:
                yield f"{peer}: {calls.strip()} {figures}"


def wrong_verdicts():
    """The workloads whose goal is not in bench/goals.tsv or whose verdict is another, and the goals of no workload."""
    goals = read_goals(ROOT / "bench" / "goals.tsv")
    names = re.findall(r"^[^\t\n]+", (ROOT / "bench" / "goals.tsv").read_text(), re.M)
    yield from (f"goals.tsv: two goals of {name}" for name in goals if names.count(name) > 1)
    for row in table("measured.tsv"):
        _, most, goal = goals.pop(row["workload"], (None, None, None))
        judged = {name: float(row[name]) for name in ("control_from", "control_to", "judged_from", "judged_to")}
        if goal != row["goal"] or verdict(judged, most) != row["verdict"]:
            yield f"measured.tsv: the goal or the verdict of {row['workload']}"
    yield from (f"goals.tsv: {name} is not measured" for name in goals)
    named = re.search(r"\*\*Missed goals\*\*:([^.]*)", (ROOT / "bench" / "README.md").read_text())
    missed = {row["workload"] for row in table("measured.tsv") if row["verdict"] == "missed"}
    if set(re.findall(r"`([\w-]+)`", named[1] if named else "")) != missed:
        yield f"README.md: the missed goals are {', '.join(sorted(missed))}"


def main():
    argparse.ArgumentParser(description=__doc__, formatter_class=argparse.RawDescriptionHelpFormatter).parse_args()
    listed = subprocess.run(["git", "ls-files"], cwd=ROOT, capture_output=True, text=True, check=True)
    files = listed.stdout.split()
    documents = [name for name in files if name.endswith(".md")]
    wrong = [f"{name}: {line}" for name in documents for line in wrong_in(ROOT / name, files)]
    wrong += [f"docs/SPEED.md: not as measured: {line}" for line in wrong_speed()]
    wrong += [f"README.md: not as measured: {line}" for line in wrong_readme()]
    wrong += [f"bench/{name}" for name in chain(wrong_verdicts(), wrong_goals("maps"), wrong_goals("sequences"))]
    wrong += [f"no test, program or use calls {name}" for name in uncalled()]
    print("\n".join([*wrong, f"documents: {len(wrong)} wrong"]))
    return 1 if wrong else 0


if __name__ == "__main__":
    sys.exit(main())
