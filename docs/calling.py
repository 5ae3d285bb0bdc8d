#!/usr/bin/env python3
"""Quotes each public call with its contract from the source, in the blocks of the crates/NAME/CALLING.md. A block
names folders of source and then types, as ```text sequence/src: Sequence Iter. The types come in that order. Other
types come after them, and functions without a type come last.

A block begins with the types that are named or that a call takes or returns. Of each type it has the derived traits,
the variants or public fields, and for each head of an impl the calls and traits of that impl. A trait of these folders
counts only if it is named. Then come the calls of each type: constructors, then calls that read the type, clone it,
change it and consume it. Calls of one kind with the same clauses share these. Lemmas, which take nothing and whose
names spell what they promise, share a line, `laws`. Calls without a clause come last. A method of a trait is listed
only if it has clauses of its own.

With --check the script writes nothing. It ends with 1 if a block is not up to date or does not name its source, or if
no block quotes a crate that docs/TOUR.md names, as in `rose_undo`, or that such a crate names in crates.txt.

    docs/calling.py            # after a change of a contract
    docs/calling.py --check    # as ./check does
"""
import argparse
import re
import sys
from itertools import chain, groupby
from pathlib import Path
from textwrap import wrap

CRATES = Path(__file__).resolve().parent.parent / "crates"
BLOCK = re.compile(r"```text ((?:\w+/src ?)+)(:[\w ]+)?\n.*?```", re.S)
HEAD = re.compile(r"text(?: \w+/src)+(?:: [\w ]+)?|rust \S+")
IMPL = re.compile(r"^((?:unsafe )?impl\b[^{]*)\{(\}|.*?^\})", re.M | re.S)
GIVES = re.compile(r"^    ghost (from_gives) = \{ (.*?) \};", re.M | re.S)
OWN_TRAIT = re.compile(r"^pub trait (\w+)", re.M)
TYPE = re.compile(
    r"^((?:#\[[^\n]*\]\n)*)pub ((struct|enum|trait|type) (\w+)(?:[^;{(]|(?<=[<, ])\()*)(?:\{(\}|.*?^\})|[;(])",
    re.M | re.S,
)
FUNCTION = re.compile(r"^( *)(pub )?(?:unsafe |const )?fn (.*)$")
CLAUSE = re.compile(r" (requires|ensures\*?)( \w+)? \{ ?")
RECEIVER = re.compile(r"\((?:(&?(?:'\w+ )?(?:mut )?)self\b|(?:this|raw): (&?(?:mut )?))")
COLUMNS = 120
OWN_TRAITS = {name for path in CRATES.glob("*/src/**/*.rt") for name in OWN_TRAIT.findall(path.read_text())}


def functions(source):
    """Of each function the head of its impl, whether it is public, and its lines up to its body."""
    owner, lines = "", iter(source.splitlines())
    for line in lines:
        if re.match(r"(unsafe )?impl\b", line):
            while not line.endswith(("{", "}")):
                line += " " + next(lines).strip()
            owner = line.rstrip("{} ")
        elif line == "}":
            owner = ""
        elif head := FUNCTION.match(line):
            taken = [head[3]]
            while not taken[-1].endswith((" {", " {}", ";")) and taken[-1] not in (head[1] + "{", head[1] + "{}"):
                taken.append(next(lines))
            yield owner, head[2], [part for part in taken if not part.strip().startswith("//")]


def without_comments(text):
    return re.sub(r"^ *(?://|#\[).*\n", "", text, flags=re.M)


def in_one_line(text):
    """The text without line ends, and without the commas and spaces that they leave at brackets."""
    text = re.sub(r"\s+", " ", text)
    return re.sub(r",? ?(?=[)\]>])|(?<=[(<\[]) ", "", text).strip()


def declared(attributes, head, kind, inside):
    """The lines that show a type: what it derives, and its variants or public fields."""
    derives = ", ".join(re.findall(r"^#\[derive(?:_where)?\((.*)\)\]", attributes, re.M))
    if derives:
        yield f"#[derive({derives})]"
    parts = without_comments(inside or "").removesuffix("}")
    if kind == "struct":
        fields = re.findall(r"^    pub (\w.*),$", parts, re.M)
        rest = [".."] if re.search(r"^    (?!pub )", parts, re.M) else []
        parts = ", ".join([*fields, *rest]) if fields else ""
    parts = re.sub(r", (?=\})", " ", in_one_line(parts)).removesuffix(",")
    line = in_one_line(head).rstrip(",")
    yield from wrap(f"{line} {{ {parts} }}" if parts else line, COLUMNS, subsequent_indent="  ")


def split_impl(owner):
    """Of the head of an impl its parameters, the trait if there is one, and the type with what comes after it."""
    text = in_one_line(re.sub(r"^unsafe ", "", owner)).removeprefix("impl")
    depth = end = 0
    for end, sign in enumerate(text):
        depth += (sign == "<") - (sign == ">" and text[end - 1] != "-")
        if depth == 0:
            break
    end += text.startswith("<")
    trait, _, of = text[end:].rpartition(" for ")
    return text[:end].strip(), trait.strip(), of.strip()


def kind_of(owner):
    """The type of an impl, without its parameters."""
    own = re.sub(r"^(unsafe )?impl(<.*?>)? (?=[\w&])", "", owner).split(" for ")[-1]
    return re.sub(r"<.*", "", re.sub(r"^&('\w+ )?", "", own))


def use_of(head):
    """0 for a constructor, then 1 to 4 for calls that read, clone, write and consume the value."""
    receiver = RECEIVER.search(head)
    if not receiver:
        return 0
    borrow = receiver[1] or receiver[2] or ""
    if "&" not in borrow:
        return 4
    return 3 if "mut" in borrow else 2 if "clone" in head.split("(")[0] else 1


def quoted(kind, lines):
    """The head of a call, and its clauses: what it requires in one line, if that fits, and each `ensures` apart."""
    text = re.sub(r"\s+", " ", " ".join(lines)).replace("( ", "(").replace(", )", ")")
    head, *clauses = CLAUSE.split(re.sub(r" \{ ?\}?$", "", text))
    head = ("fn " + (f"{kind}::" if kind else "") + head).replace("< ", "<").replace(", >", ">").rstrip(",")
    told = [
        f"{word}{name or ''}: {body.removesuffix('}').strip()}"
        for word, name, body in zip(clauses[::3], clauses[1::3], clauses[2::3])
    ]
    required = [clause for clause in told if clause.startswith("requires")]
    in_one = "; ".join([*required[:1], *(clause.removeprefix("requires ") for clause in required[1:])])
    if required and len("  " + in_one) <= COLUMNS:
        told[: len(required)] = [in_one]
    return head, tuple(told)


def lemma(head, clauses):
    """The name and the type parameter of a function that takes nothing and whose clause is what its name spells."""
    taken = re.fullmatch(r"fn (\w+)(?:<(\w+): Copy>)?\(\)", head)
    spelt = taken and f"{taken[1].title().replace('_', '')} {taken[2] or ''}".strip()
    return taken.groups() if clauses == (f"ensures: {spelt}",) else None


def as_lines(told):
    """The calls, each with its only clause behind it if that fits, else above the clauses that it shares."""
    groups = {}
    for place, use, head, clauses in sorted(told, key=lambda call: call[:2]):
        line = "  ".join([head, *clauses])
        fits = len(clauses) == 1 and len(line) <= COLUMNS
        groups.setdefault((place, use, line if fits else clauses), []).append(line if fits else head)
    for clauses, alike in groupby(groups.items(), key=lambda group: group[0][2]):
        yield from chain.from_iterable(heads for _, heads in alike)
        yield from ("  " + clause for clause in clauses) if isinstance(clauses, tuple) else ()


def wrapped(line):
    """The line, cut where it is too long."""
    indent = " " * (len(line) - len(line.lstrip()) + 4)
    return wrap(line, COLUMNS, subsequent_indent=indent, break_long_words=False, break_on_hyphens=False)


def given(files, kinds, hidden):
    """For each type and head of its impls the public calls in it, and the traits except the hidden ones."""
    found = {}
    for file in files:
        calls_of = [(owner, re.match(r"\w+", lines[0])[0]) for owner, public, lines in functions(file) if public]
        heads = [(in_one_line(head), GIVES.search(body)) for head, body in IMPL.findall(file)]
        for owner, told in calls_of + heads:
            parameters, trait, of = split_impl(owner)
            kind, is_call = kind_of(owner), isinstance(told, str)
            if kind not in kinds or is_call == bool(trait) or re.match(r"\w*", trait)[0] in hidden:
                continue
            under = found.setdefault(kind, {}).setdefault(f"impl{parameters} {of}", ([], []))
            gives = f" ({told[1]}: {in_one_line(told[2])})" if told and not is_call else ""
            under[bool(trait)].append(told if is_call else trait + gives)
    return found


def shown_impls(heads):
    """A line for each head of an impl of a type. Traits that a derive would give share one line."""
    derived = []
    for head, (names, traits) in heads.items():
        bounds = re.findall(r"\w+: ([\w +]+)", head)
        if not names and bounds and set(bounds) == set(traits):
            derived += traits
    for head, (names, traits) in sorted(heads.items(), key=lambda row: not row[1][0]):
        if not set(traits) & set(derived):
            yield f"{head}: {', '.join(dict.fromkeys([*names, *traits]))}"
    if derived:
        yield f"as by a derive: {', '.join(derived)}"


def types_of(files, order, heads):
    """The lines that show the types that are named or that one of these calls names, in the order that is asked for."""
    found = {match[4]: match for file in files for match in TYPE.finditer(file)}
    used = set(re.findall(r"\w+", " ".join(heads))) - OWN_TRAITS
    kinds = [name for name in dict.fromkeys([*order, *found]) if name in found and name in used.union(order)]
    kinds += [name for name, match in found.items() if match[3] == "type" and match[5] is None
              and set(kinds) & set(re.findall(r"\w+", match[2].partition("=")[2])) and name not in kinds]
    impls = given(files, kinds, (OWN_TRAITS | {"Model"}).difference(order))
    for kind in kinds:
        match = found[kind]
        if match[3] == "type":
            yield in_one_line(match[0].partition("pub ")[2]).rstrip(";")
            continue
        yield from declared(*match.groups()[:3], match[5])
        for line in shown_impls(impls.get(kind, {})):
            yield from wrap(line, COLUMNS, subsequent_indent="  ")


def calls(folders, order):
    paths = [sorted((CRATES / folder).rglob("*.rt"), key=lambda path: path.with_suffix("").parts) for folder in folders]
    files = [path.read_text() for path in chain(*paths)]
    types = set(re.findall(r"^pub (?:struct|enum|trait) (\w+)", "\n".join(files), re.M))
    told, lemmas, silent, heads = [], {}, [], []
    for owner, public, lines in (function for file in files for function in functions(file)):
        if not public and not types & set(re.findall(r" for &?(?:'\w+ )?(\w+)", owner)):
            continue
        kind = kind_of(owner)
        head, clauses = quoted(kind, lines)
        heads += [head] if public or clauses else []
        place = order.index(kind) if kind in order else len(order) + (kind == "")
        if named := lemma(head, clauses):
            lemmas.setdefault(f"lemmas<{named[1]}: Copy>" if named[1] else "lemmas", []).append(named[0])
        elif clauses:
            told.append((place, use_of(head) if kind else 0, head, clauses))
        elif public:
            silent.append((place, use_of(head) if kind else 0, head))
    yield from types_of(files, order, heads)
    yield from chain.from_iterable(map(wrapped, as_lines(told)))
    for start, names in lemmas.items():
        yield from wrap(f"{start}: {', '.join(names)}", COLUMNS, subsequent_indent="  ")
    yield from ["without a clause:"] * bool(silent)
    for *_, head in sorted(silent, key=lambda call: call[:2]):
        yield from wrapped(f"  {head}")


def toured():
    """The source of each crate with public calls that the tour names, and of their dependencies."""
    used = dict(re.findall(r"^(\w+).*?:(.*)", (CRATES.parent / "crates.txt").read_text(), re.M))
    named = set(re.findall(r"\bin `(\w+)`", (CRATES.parent / "docs" / "TOUR.md").read_text())) & used.keys()
    for name in sorted(named.union(*(used[name].split() for name in named)) & used.keys()):
        sources = (path.read_text() for path in (CRATES / name / "src").rglob("*.rt"))
        if any(public for source in sources for _, public, _ in functions(source)):
            yield f"{name}/src"


def main():
    parser = argparse.ArgumentParser(description=__doc__, formatter_class=argparse.RawDescriptionHelpFormatter)
    parser.add_argument("--check", action="store_true", help="write nothing, and compare")
    checks = parser.parse_args().check
    old, quoted = [], set()
    for page in sorted(CRATES.glob("*/CALLING.md")):
        text = page.read_text()
        new = BLOCK.sub(lambda block: "\n".join([
            f"```text {block[1]}{block[2] or ''}", *calls(block[1].split(), (block[2] or ":")[1:].split()), "```"
        ]), text)
        if not checks:
            page.write_text(new)
        elif new != text or not all(map(HEAD.fullmatch, re.findall("^```(.*)", text, re.M)[::2])):
            old.append(f"{page.parent.name}/CALLING.md: a block is not that of the source")
        quoted.update(chain.from_iterable(block[1].split() for block in BLOCK.finditer(text)))
    if checks:
        old += [f"{folder}: no CALLING.md quotes its calls" for folder in toured() if folder not in quoted]
        print(f"contracts: {len(old)} blocks not as the source has them", flush=True)
    sys.exit("\n".join(old) or None)


if __name__ == "__main__":
    main()
