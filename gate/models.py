"""Models of the sequences and maps that `collection_scripts` runs scripts of, written from the heads of its modules:
plain lists and dicts. A model computes the answer to a line, and draws lines for random scripts."""
from bisect import bisect_left, bisect_right

# A random script puts in more than it takes out for so many calls, and then the other way round.
TURN = 2_500
NO_ITEMS = '"no items"'
REFUSED = {"Err(AllocError)", "Err(Memory)", "AllocError", NO_ITEMS}
NO_CALL = '"no such call"'
NO_PLACE = "Err(NoPlace)"


def some(value):
    return "None" if value is None else f"Some({value})"


def ends(items):
    """How many there are, and the first and the last."""
    return f"({len(items)}, {some(items[0] if items else None)}, {some(items[-1] if items else None)})"


def read_both_ways(items):
    return ends(items) if len(items) != 1 else f"(1, {some(items[0])}, None)"


class Versions:
    """A version, the one beside it, and those that were kept. None of them is changed in place."""

    # What a call makes one item for, what it makes many for, and what no model knows.
    MAKES = {"insert", "set", "push", "push_front", "alter", "contains"}
    MAKES_MANY = {"fill", "extend"}
    UNKNOWN = {"tally", "shared", "depth", "pretty"}

    def __init__(self):
        self.now, self.other, self.kept, self.made = self.EMPTY, self.EMPTY, [], 0

    def answer(self, line, answered):
        """The answer to a line: `Ok(())` if the call returns nothing. The answer of the program counts if it cannot be
        known, or if the call failed. A call without a place or an entry to change never fails."""
        word, *words = line.split(" ")
        numbers = [int(number) for number in words if number.isdigit()]
        made = numbers[0] if word in self.MAKES_MANY else word in self.MAKES
        self.made += made if answered != NO_ITEMS else 0
        if word in self.UNKNOWN:
            return answered
        before = vars(self).copy()
        wanted = getattr(self, f"do_{word}")(*numbers) or "Ok(())"
        is_never_refused = wanted == NO_PLACE or wanted == "Ok(None)" and self.now is before["now"]
        if answered not in REFUSED or is_never_refused:
            return wanted
        vars(self).update(before)
        self.refuse(word)
        return answered

    def refuse(self, word):
        """A call that fails changes nothing, but its arguments are dropped."""

    def draw(self, chance, step):
        """A line of a random script."""
        more, fewer = (self.PUTS, self.TAKES) if step // TURN % 2 == 0 else (self.TAKES, self.PUTS)
        line = chance.choice(self.LINES + [more] * 10 + [fewer] * 2 + self.RARE * (step % 50 == 0))
        return line.format(at=chance.randrange(len(self.now) + 2), key=chance.randrange(4_000),
                           item=chance.randrange(100), path=" 1" * chance.randrange(2) + " 0" * chance.randrange(2))

    def do_print(self):
        return str(self.now)

    def do_same(self):
        return str(self.now == self.other).lower()

    def do_drop(self):
        self.now = self.EMPTY
        return "()"

    def do_swap(self):
        self.now, self.other = self.other, self.now
        return "()"

    def do_keep(self):
        self.kept = [*self.kept, self.now]

    def do_back(self, number):
        if number >= len(self.kept):
            return "Ok(None)"
        self.now = self.kept[number]
        return "Ok(Some(()))"


class Sequence(Versions):
    EMPTY = []

    def do_fill(self, count):
        self.now = list(range(count))

    def do_insert(self, at, item):
        if at > len(self.now):
            return NO_PLACE
        self.now = [*self.now[:at], item, *self.now[at:]]

    def put(self, at, new):
        """What stood at the place, which gets the new items."""
        if at >= len(self.now):
            return NO_PLACE
        old, self.now = self.now[at], [*self.now[:at], *new, *self.now[at + 1:]]
        return f"Ok({old})"

    def do_set(self, at, item):
        return self.put(at, [item])

    def do_add(self, at, number):
        if at >= len(self.now):
            return NO_PLACE
        self.put(at, [self.now[at] + number])
        return f"Ok({self.now[at]})"

    def do_remove(self, at):
        return self.put(at, [])

    def do_push(self, item):
        return self.do_insert(len(self.now), item)

    def do_push_front(self, item):
        return self.do_insert(0, item)

    def pop(self, at):
        if not self.now:
            return "Ok(None)"
        old = self.now[at]
        self.put(at % len(self.now), [])
        return f"Ok(Some({old}))"

    def do_pop(self):
        return self.pop(-1)

    def do_pop_front(self):
        return self.pop(0)

    def do_append(self):
        self.now, self.other = self.now + self.other, []

    def refuse(self, word):
        self.other = [] if word in ("append", "replace") else self.other

    def do_split(self, at):
        if at > len(self.now):
            return NO_PLACE
        self.now, self.other = self.now[:at], self.now[at:]

    def do_replace(self, start, end):
        other, self.other = self.other, []
        if not start <= end <= len(self.now):
            return NO_PLACE
        self.now, self.other = self.now[:start] + other + self.now[end:], self.now[start:end]

    def do_truncate(self, count):
        self.now = self.now[:count]

    def do_extend(self, count):
        self.now = self.now + list(range(count))

    def do_retain(self, least):
        self.now = [item for item in self.now if item >= least]

    def do_exchange(self, one, two):
        if max(one, two) >= len(self.now):
            return NO_PLACE
        items = self.now.copy()
        items[one], items[two] = items[two], items[one]
        self.now = items

    def do_clear(self):
        return self.do_drop()

    def do_get(self, at):
        return some(self.now[at] if at < len(self.now) else None)

    def do_item(self, at):
        return str(self.now[at]) if at < len(self.now) else NO_CALL

    def do_contains(self, item):
        return str(item in self.now).lower()

    def do_ends(self):
        return ends(self.now)

    def do_range(self, start, end):
        return read_both_ways(self.now[start:end])

    PUTS, TAKES, RARE = "insert {at} {item}", "remove {at}", ["contains {item}", "exchange {at} 3"]
    LINES = ["set {at} {item}", "add {at} {item}", "push {item}", "push_front {item}", "pop", "pop_front", "get {at}",
             "item {at}", "range {at} {key}"]
    # Cuts the list and joins it again, in its order and the other way round. Then puts another one into it, takes a
    # part out, and makes it longer and shorter.
    WHOLE = ["swap", "back {version}", "same", "split {at}", "ends", "append", "ends", "split {at}", "swap", "append",
             "swap", "same", "swap", "print", "swap", "back {version}", "replace {at} {at}", "print", "exchange 0 {at}",
             "replace 7 {at}", "print", "swap", "ends", "swap", "extend {at}", "print", "retain {version}", "print",
             "truncate {at}", "ends", "back {version}", "print", "clear", "ends"]


class Map(Versions):
    EMPTY = {}

    def entries(self):
        return sorted(self.now.items())

    def do_print(self):
        return "{" + ", ".join(f"{key}: {value}" for key, value in self.entries()) + "}"

    def do_fill(self, count):
        self.now = {key: key for key in range(count)}

    def do_insert(self, key, value):
        old, self.now = self.now.get(key), self.now | {key: value}
        return f"Ok({some(old)})"

    def only(self, is_kept):
        return {key: value for key, value in self.now.items() if is_kept(key)}

    def do_remove(self, key):
        old = self.now.get(key)
        if old is not None:
            self.now = self.now.copy()
            del self.now[key]
        return f"Ok({some(old)})"

    def do_add(self, key, number):
        if key not in self.now:
            return "Ok(None)"
        self.now = self.now | {key: self.now[key] + number}
        return f"Ok(Some({self.now[key]}))"

    def do_alter(self, key, value):
        self.do_remove(key) if key in self.now else self.do_insert(key, value)

    def pop(self, at):
        if not self.now:
            return "Ok(None)"
        entry = self.entries()[at]
        self.do_remove(entry[0])
        return f"Ok(Some({entry}))"

    def do_pop_first(self):
        return self.pop(0)

    def do_pop_last(self):
        return self.pop(-1)

    def do_retain(self, least):
        self.now = self.only(lambda key: key >= least)

    def do_clear(self):
        return self.do_drop()

    def do_append(self):
        self.now = self.now | self.other

    def do_split(self, least):
        self.now, self.other = self.only(lambda key: key < least), self.only(lambda key: key >= least)

    def do_union(self):
        self.other = self.other | self.now

    def do_both(self):
        self.other = self.only(lambda key: key in self.other)

    def do_rest(self):
        self.other = self.only(lambda key: key not in self.other)

    def do_get(self, key):
        return some(self.now.get(key))

    def do_near(self, key):
        keys, entries = sorted(self.now), [None, *self.entries(), None]
        return f"({bisect_left(keys, key)}, {some(entries[bisect_right(keys, key)])}, " \
               f"{some(entries[bisect_left(keys, key) + 1])})"

    def do_nth(self, at):
        return some(self.entries()[at] if at < len(self.now) else None)

    def do_ends(self):
        return ends(self.entries())

    def do_range(self, start, end):
        return read_both_ways([entry for entry in self.entries() if start <= entry[0] < end])

    def do_changes(self):
        changes = []
        for key in sorted(self.now.keys() | self.other.keys()):
            old, new = self.now.get(key), self.other.get(key)
            change = f"Added({new})" if old is None else f"Removed({old})" if new is None else f"Changed({old}, {new})"
            changes += [f"{key} {change}"] * (old != new)
        return " ".join(["changes:", *changes])

    PUTS, TAKES, LINES = "insert {key} {item}", "remove {key}", ["add {key} {item}", "alter {key} {item}", "get {key}"]
    RARE = ["pop_first", "pop_last", "near {key}", "nth {at}", "range {key} 3000", "ends"] * 3
    # Compares it with another one, cuts it and joins it again, and makes what two have, or one alone.
    WHOLE = ["swap", "back {version}", "changes", "split {at}", "ends", "append", "same", "back 1", "union", "swap",
             "print", "back 2", "rest", "ends", "both", "swap", "print", "retain {at}", "ends"]
