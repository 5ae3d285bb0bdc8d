"""Models of the trees and interners that `collection_scripts` runs scripts of, as models.py has those of others."""
from itertools import chain

from models import REFUSED, Versions, some


class Tree(Versions):
    """A value and the trees below it."""
    EMPTY = (0, ())
    UNKNOWN = Versions.UNKNOWN | {"print"}

    def __init__(self):
        super().__init__()
        self.before, self.undone, self.made = [], [], 1

    def change(self, path, changed):
        """The next version has the tree there that is made of the one there."""
        def along(tree, path):
            if not path:
                return changed(tree)
            at, *rest = path
            low = tree[1]
            new = along(low[at], rest) if at < len(low) else None
            return new and (tree[0], low[:at] + (new,) + low[at + 1:])
        new = along(self.now, path)
        if new is None:
            return "Err(NoPlace)"
        self.before, self.now, self.undone = [*self.before, self.now], new, []

    def do_set(self, value, *path):
        return self.change(path, lambda tree: (value, tree[1]))

    def do_insert(self, value, at, *path):
        return self.change(path, lambda tree: None if at > len(tree[1]) else
                           (tree[0], tree[1][:at] + ((value, ()),) + tree[1][at:]))

    def do_add(self, value, *path):
        return self.change(path, lambda tree: (tree[0] + 2 * value, tree[1]))

    def do_put(self, *path):
        return self.change(path, lambda _: self.now)

    def do_remove(self, at, *path):
        return self.change(path, lambda tree: None if at >= len(tree[1]) else
                           (tree[0], tree[1][:at] + tree[1][at + 1:]))

    def do_undo(self):
        if not self.before:
            return "Ok(false)"
        self.undone, self.before, self.now = [*self.undone, self.now], self.before[:-1], self.before[-1]
        return "Ok(true)"

    def do_redo(self):
        if not self.undone:
            return "Ok(false)"
        self.before, self.undone, self.now = [*self.before, self.now], self.undone[:-1], self.undone[-1]
        return "Ok(true)"

    def do_forget(self, count):
        self.before = self.before[max(len(self.before) - count, 0):]
        return "()"

    def do_at(self, *path):
        tree = self.now
        for at in path:
            if at >= len(tree[1]):
                return "None"
            tree = tree[1][at]
        return some(tree[0])

    def do_values(self):
        def values(tree):
            return [tree[0], *(value for low in tree[1] for value in values(low))]
        return str(values(self.now))

    def do_paths(self):
        def paths(tree, path):
            below = (paths(low, [*path, at]) for at, low in enumerate(tree[1]))
            return [f"({path}, {tree[0]})", *chain.from_iterable(below)]
        return f"[{', '.join(paths(self.now, []))}]"

    def do_versions(self):
        back, on = len(self.before), len(self.undone)
        return f"(({back}, {back > 0}), ({on}, {on > 0}))".lower()

    PUTS, TAKES, RARE = "insert {item} 0{path}", "remove 0{path}", ["forget 9", "put{path}", "values", "paths"]
    LINES = ["set {item}{path}", "add {item}{path}", "at{path}", "undo", "redo", "versions"]
    WHOLE = ["values", "paths"]


class Interner(Versions):
    """Texts, and the number of each."""
    EMPTY = None

    def __init__(self):
        super().__init__()
        self.now = {}

    def answer(self, line, answered):
        word, _, text = line.partition(" ")
        is_never_refused = word == "intern" and text in self.now
        return answered if answered in REFUSED and not is_never_refused else getattr(self, f"do_{word}")(text)

    def do_print(self, _text):
        return "[" + ", ".join(f'"{text}"' for text in self.now) + "]"

    def number(self, text):
        return self.now.setdefault(text, len(self.now))

    def do_intern(self, text):
        return f"Ok({self.number(text)})"

    do_give = do_intern

    def do_block(self, text):
        is_new = str(text not in self.now).lower()
        return f"Ok(({self.number(text)}, {is_new}))"

    def do_find(self, text):
        return some(self.now.get(text))

    def do_get(self, number):
        return some(f'"{list(self.now)[int(number)]}"' if int(number) < len(self.now) else None)

    PUTS, TAKES, LINES, RARE = "intern {key}", "find {key}", ["get {at}", "give {key}", "block {key}"], ["print"]
    WHOLE = ["print"]
