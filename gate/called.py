"""Lists the public functions of each library and of `uses` that no test, program, use or other library calls by name. A
function without a call goes unnoticed if a function of the same name of another type is called."""
import re
from pathlib import Path

CRATES = Path(__file__).resolve().parent.parent / "crates"
FUNCTION = re.compile(r"^( *)pub (?:unsafe |const )*fn (\w+)([^\n]*)", re.M)
OWNER = re.compile(r"^(?:unsafe )?impl(?:<(?:[^<>]|<(?:[^<>]|<[^<>]*>)*>)*>)? (?:[^{]* for )?(\w+)[^{]*\{", re.M)
CALL = re.compile(r"(?:(?<=::)|(?<!fn )\b(?=\w+(?:::<[^>]*>)?\())\w+")
WORD = re.compile(r"\w+")
EXPORT = re.compile(r"^ *pub use ([^;]*);", re.M)
MODULE = re.compile(r"^(pub )?mod (\w+);", re.M)


def source(path):
    return re.sub(r"^\s*//.*", "", path.read_text(), flags=re.M)


def sources(crate):
    return {path: source(path) for path in sorted((CRATES / crate / "src").rglob("*.rt"))}


def public_modules(path):
    """The file, and those of the public modules below it."""
    yield path
    folder = path.parent if path.name == "lib.rt" else path.with_suffix("")
    for public, name in MODULE.findall(source(path)):
        if public:
            yield from public_modules(folder / f"{name}.rt")


def public_functions(crate, files):
    """The functions that can be named from outside, each with its type, if it has one, and whether it is a law."""
    public = set(public_modules(CRATES / crate / "src" / "lib.rt"))
    exported = set(re.findall(r"\w+", " ".join(EXPORT.findall("\n".join(files[path] for path in public)))))
    for path, text in files.items():
        for found in FUNCTION.finditer(text):
            owner = OWNER.findall(text, 0, found.start())[-1] if found[1] else ""
            if path in public or {owner, found[2]} & exported:
                yield owner, found[2], re.match(r"(<[\w:, ]*>)?\(\)$", found[3])


def uncalled():
    crates = re.findall(r"^(\w+)[^:\n]*:", (CRATES.parent / "crates.txt").read_text(), re.M)
    files = {crate: sources(crate) for crate in crates}
    found = {path: (set(CALL.findall(text)), set(WORD.findall(text))) for each in files.values()
             for path, text in each.items()}
    for crate in crates:
        if (CRATES / crate / "src" / "main.rt").exists() or crate.startswith("test"):
            continue
        own = [path for path in files[crate] if crate != "uses" and "tests" not in path.with_suffix("").parts]
        called, told = (set().union(*names) for names in zip(*(found[path] for path in found.keys() - own)))
        for owner, name, is_law in public_functions(crate, files[crate]):
            if name not in (told if is_law else called):
                yield f"{crate}: {owner}::{name}" if owner else f"{crate}: {name}"


if __name__ == "__main__":
    print("\n".join(uncalled()))
