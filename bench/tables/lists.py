"""Writes crates/search_tables/data/random_lists: lists of 200 changes of each part with what the part then tells, by
plain models that keep sets of pairs. Run at the top of the repository: python3 bench/tables/lists.py"""
import random

random.seed(20261130)
lines = ["# Lists of 200 changes each, each line with the name of its part, in the words of the other tables. What comes of a line",
         "# was written by plain models (bench/tables/lists.py), which keep sets of pairs and look through all of them.", "#"]


def ids(numbers):
    return "[" + ", ".join(str(n) for n in sorted(numbers)) + "]"


def words(rounds):
    lines.append("word begin = done")
    pairs = set()
    names = ["a", "b", "road", "7"]
    for _ in range(rounds):
        word, local = random.choice(names), random.randrange(12)
        kind = random.random()
        if kind < 0.5:
            pairs.add((word, local))
            lines.append(f"word add {word} {local} = done")
        elif kind < 0.75:
            pairs.discard((word, local))
            lines.append(f"word remove {word} {local} = done")
        else:
            to = random.randrange(12)
            if (word, local) in pairs:
                pairs.discard((word, local))
                pairs.add((word, to))
            lines.append(f"word move {word} {local} {to} = done")
        asked = random.choice(names)
        lines.append(f"word list {asked} = {ids(l for w, l in pairs if w == asked)}")


def stores(rounds):
    lines.append("store begin = done")
    held = {}
    for _ in range(rounds):
        if random.random() < 0.6:
            name, key = f"id:ns:music::{random.randrange(14)}", random.randrange(100)
            own = [n for n, d in held.items() if d[0] == name]
            free = 0
            while free in held:
                free += 1
            local = own[0] if own else free
            if not own:
                held[local] = (name, key)
            lines.append(f"store assign {name} {key} = {local}")
        else:
            local = random.randrange(14)
            held.pop(local, None)
            lines.append(f"store free {local} = done")
        asked = random.randrange(14)
        lines.append(f"store key {asked} = " + (f"Some({held[asked][1]})" if asked in held else "None"))
        lines.append(f"store id {asked} = " + (held[asked][0] if asked in held else "none"))
        name = f"id:ns:music::{random.randrange(14)}"
        own = [n for n, d in held.items() if d[0] == name]
        lines.append(f"store local {name} = " + (f"Some({own[0]})" if own else "None"))
        lines.append(f"store locals = {ids(held)}")
        lines.append(f"store len = {len(held)}")


def columns(rounds, kind):
    lines.append(f"column begin {kind} = done")
    held = {}
    for _ in range(rounds):
        local = random.randrange(12)
        what = random.random()
        if what < 0.6:
            numbers = [random.randrange(-4, 5) for _ in range(random.randrange(1, 4))]
            if kind == "int":
                numbers = numbers[:1]
            held[local] = numbers
            said = str(numbers[0]) if kind == "int" else "#" + ",".join(map(str, numbers))
            lines.append(f"column set {local} {said} = done")
        elif what < 0.8:
            held.pop(local, None)
            lines.append(f"column clear {local} = done")
        elif what < 0.95:
            to = random.randrange(12)
            if to < local and to not in held:
                if local in held:
                    held[to] = held.pop(local)
                lines.append(f"column move {local} {to} = done")
        else:
            lines.append("column compact = done")
        low, high = random.randrange(-5, 6), random.randrange(-5, 6)
        between = sorted({n for v in held.values() for n in v if low <= n <= high})
        if between:
            having = ids(l for l, v in held.items() if between[0] in v)
            lines.append(f"column next {low} {high} = Some(({between[0]}, {having}))")
        else:
            lines.append(f"column next {low} {high} = None")
        asked = random.randrange(12)
        if asked not in held:
            told = "none"
        elif kind == "int":
            told = str(held[asked][0])
        else:
            told = "[" + ", ".join(map(str, held[asked])) + "]"
        lines.append(f"column value {asked} = {told}")


def maps(rounds):
    lines.append("map begin = done")
    held = {}
    for _ in range(rounds):
        local = random.randrange(12)
        what = random.random()
        if what < 0.5:
            held[local] = f"v{random.randrange(100)}"
            lines.append(f"map set {local} {held[local]} = done")
        elif what < 0.75:
            held.pop(local, None)
            lines.append(f"map clear {local} = done")
        elif what < 0.9:
            to = random.randrange(12)
            if to < local and to not in held:
                if local in held:
                    held[to] = held.pop(local)
                lines.append(f"map move {local} {to} = done")
        else:
            lines.append("map compact = done")
        asked = random.randrange(12)
        lines.append(f"map get {asked} = {held.get(asked, 'none')}")


maps(200)
words(200)
stores(200)
columns(200, "int")
columns(200, "ints")
with open("crates/search_tables/data/random_lists", "w") as file:
    file.write("\n".join(lines) + "\n")
