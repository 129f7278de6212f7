"""Writes crates/search_tables/data/random_views: three lists of 200 changes of a lane's view, with what the view then
tells, by a plain model that goes through all documents for each answer. Run at the top of the repository:
python3 bench/tables/views.py"""
import random
import re
from hashlib import md5

HEAD = """# Three lists of 200 changes of a view each, in the words of the tables of views and of searches. What comes of a line was
# written by a plain model (bench/tables/views.py), which goes through all documents for each answer.
#"""
SCHEMA = {"music": {"title": "text", "year": "int", "tags": "texts", "marks": "ints"},
          "book": {"title": "texts", "year": "int", "tags": "text"}}
TEXTS = ["red", "Blue", "red-blue", "x9", "RED+red", "sky_7", "-"]
ASKED = ["red", "blue", "x9", "sky", "7", "none"]
lines = []


def kind(value):
    """A value is a pair of its kind and what it has."""
    return value[0]


def said(value):
    word, has = value
    return {"int": str, "text": lambda t: "'" + t, "ints": lambda ns: "#" + ",".join(map(str, ns)),
            "texts": lambda ts: '"' + ",".join(ts)}[word](has)


def told(value):
    """What a table shows of a value: of a list of texts how many it has."""
    if value is None:
        return "none"
    word, has = value
    return {"int": str, "text": lambda t: f'"{t}"', "ints": str, "texts": lambda ts: str(len(ts))}[word](has)


def ids(numbers):
    return "[" + ", ".join(map(str, sorted(numbers))) + "]"


# ---- ids, keys and buckets

def type_of(name):
    return name.split(":")[2]


def key_of(name):
    digest, spec = md5(name.encode()).digest(), name.split(":")[3]
    if spec.startswith("n="):
        location = int(spec[2:]) % 2**32
    elif spec.startswith("g="):
        location = int.from_bytes(md5(spec[2:].encode()).digest()[:4], "little")
    else:
        location = int.from_bytes(digest[:4], "little")
    return location + 2**32 * (int.from_bytes(digest[4:8], "little") % 2**26)


def has(bucket, key):
    return key % 2**bucket[0] == bucket[1]


def covers(one, two):
    return one[0] <= two[0] and has(one, two[1])


def bucket_text(bucket):
    return f"{bucket[0] * 2**58 + bucket[1]:016x}"


# ---- the model

class Node:
    """Documents stand at places: each is an id and its fields."""

    def __init__(self):
        self.version, self.stopped, self.regions, self.rows = 0, False, [], {}

    def lies(self, name):
        return any(has(region, key_of(name)) for region in self.regions)

    def keep(self, name, fields):
        own = [place for place, row in self.rows.items() if row[0] == name]
        if fields is None:
            for place in own:
                del self.rows[place]
            return
        kinds = SCHEMA.get(type_of(name), {})
        fitted = {field: value for field, value in fields.items() if kinds.get(field) == kind(value)}
        place = own[0] if own else min(set(range(len(self.rows) + 1)) - set(self.rows))
        self.rows[place] = (name, fitted)

    def where(self, type_name, test):
        return [place for place, (name, fields) in self.rows.items() if type_of(name) == type_name and test(fields)]


def tokens(value):
    if value is None or kind(value) not in ("text", "texts"):
        return set()
    texts = [value[1]] if kind(value) == "text" else value[1]
    return {token.lower() for text in texts for token in re.findall("[A-Za-z0-9]+", text)}


def numbers(value):
    if value is None or kind(value) not in ("int", "ints"):
        return []
    return [value[1]] if kind(value) == "int" else value[1]


class View:
    def __init__(self):
        self.nodes, self.generation = [Node() for _ in range(32)], 0

    def adopt(self, at, version):
        if at < 32 and version > self.nodes[at].version:
            node = self.nodes[at]
            node.version, node.regions, node.rows = version, [], {}

    def activate(self, at, bucket, entries):
        if at >= 32:
            return
        node = self.nodes[at]
        for other in self.nodes:
            if other is not node and other.version == node.version:
                if any(covers(bucket, region) or covers(region, bucket) for region in other.regions):
                    return
        if any(covers(region, bucket) for region in node.regions):
            return
        for name in sorted(entries):
            if has(bucket, key_of(name)) and not node.lies(name):
                node.keep(name, entries[name])
        node.regions = [bucket] + [region for region in node.regions if not covers(bucket, region)]

    def take(self, at, name, fields):
        if at < 32 and self.nodes[at].lies(name):
            self.nodes[at].keep(name, fields)

    def serving(self, version):
        return [node for node in self.nodes if node.version == version and not node.stopped]

    def measure(self, version):
        return sum(2 ** (58 - bits) for node in self.serving(version) for bits, _ in node.regions)


# ---- searches

def condition(kinds, rows, depth):
    """A text and its test, mostly of what some document has."""
    what = random.random()
    if depth == 0 or what < 0.5:
        field = random.choice(list(kinds))
        if what < 0.06:
            word = random.choice(["true", "false"])
            return word, lambda fields: word == "true"
        if kinds[field] in ("text", "texts"):
            there = sorted({token for fields in rows for token in tokens(fields.get(field))})
            wanted = random.sample(there if len(there) > 1 else ASKED[:5], random.choice([1, 1, 2]))
            return f'{field} contains "{" ".join(wanted)}"', lambda fields: set(wanted) <= tokens(fields.get(field))
        sign, number = random.choice(["=", "<", "<=", ">", ">="]), random.randrange(-2, 5)
        test = {"=": lambda n: n == number, "<": lambda n: n < number, "<=": lambda n: n <= number,
                ">": lambda n: n > number, ">=": lambda n: n >= number}[sign]
        return f"{field}{sign}{number}", lambda fields: any(map(test, numbers(fields.get(field))))
    one, is_one = condition(kinds, rows, depth - 1)
    if what < 0.65:
        return f"!({one})", lambda fields: not is_one(fields)
    two, is_two = condition(kinds, rows, depth - 1)
    if what < 0.85:
        return f"({one}) and ({two})", lambda fields: is_one(fields) and is_two(fields)
    return f"{one} or ({two})", lambda fields: is_one(fields) or is_two(fields)


def output(word, found):
    if word == "count()":
        return f"Some({len(found)})"
    years = [fields["year"][1] for fields in found if "year" in fields]
    if word == "sum(year)":
        return f"Some({sum(years)})"
    least = {"min(year)": min, "max(year)": max}[word]
    return f"Some({least(years)})" if years else "None"


def search(view, version):
    type_name = random.choice(["music", "music", "book"])
    kinds = SCHEMA[type_name]
    nodes = view.serving(version)
    rows = [fields for node in nodes for name, fields in node.rows.values() if type_of(name) == type_name]
    text, test = condition(kinds, rows, random.choice([0, 1, 1, 2]))
    query = f"select * from {type_name} where {text}"
    found = [node.rows[place][1] for node in nodes for place in node.where(type_name, test)]
    covered = view.measure(version)
    answer = f"{len(found)} at {version}, {covered} covered, full {'true' if covered == 2**58 else 'false'}"
    if random.random() < 0.5:
        field = random.choice([name for name, word in kinds.items() if word in ("int", "text")])
        outputs = random.sample(["count()", "sum(year)", "min(year)", "max(year)"], random.randrange(1, 4))
        query += f" | all(group({field}) each(output({','.join(outputs)})))"
        for value in sorted({fields[field][1] for fields in found if field in fields}):
            own = [fields for fields in found if field in fields and fields[field][1] == value]
            answer += f"; {value}: {len(own)} " + " ".join(output(word, own) for word in outputs)
    lines.append(f"search {version} {query} = {answer}")


# ---- lists of changes

def some_id():
    spec = random.choice([f"n={random.randrange(8)}"] * 6 + ["n=4294967301", "g=a", "g=b", ""])
    return f"id:ns:{random.choice(['music'] * 6 + ['book'] * 3 + ['film'])}:{spec}:{random.choice('abc')}"


def some_id_where(test):
    """Mostly one that passes a test."""
    names = [some_id() for _ in range(6)]
    return next((name for name in names if test(name)), names[0])


def some_value(word):
    return (word, {"int": lambda: random.randrange(-2, 5), "text": lambda: random.choice(TEXTS),
                   "ints": lambda: [random.randrange(-2, 5) for _ in range(random.randrange(1, 3))],
                   "texts": lambda: [random.choice(TEXTS) for _ in range(random.randrange(1, 3))]}[word]())


def some_fields(name):
    """Fields of the type and sometimes others, some of a wrong kind; none for a remove."""
    if random.random() < 0.2:
        return None
    kinds, fields = SCHEMA.get(type_of(name), {"title": "text", "year": "int"}), {}
    for field, word in {**kinds, "else": "int"}.items():
        if random.random() < (0.1 if field == "else" else 0.6):
            fields[field] = some_value(word if random.random() < 0.85 else random.choice(["int", "text", "ints", "texts"]))
    return fields


def entry_text(name, fields):
    if fields is None:
        return "-" + name
    return name + "".join(f";{field}={said(value)}" for field, value in fields.items())


def some_node():
    return random.choice([0, 0, 0, 1, 1, 1, 2, 31] * 4 + [random.randrange(34)])


def some_bucket():
    bits = random.choice([1, 2, 2, 2, 3, 3, 3, 3, 4, 32, 34])
    return bits, key_of(some_id()) % 2**bits


def change(view, newest):
    """One change, said and made."""
    at, what = some_node(), random.random()
    view.generation += 1
    if what < 0.04:
        version = random.randrange(max(newest - 1, 0), newest + 1)
        view.adopt(at, version)
        return f"adopt {at} {version}"
    if what < 0.34:
        bucket = some_bucket()
        names = {some_id_where(lambda name: has(bucket, key_of(name))) for _ in range(random.randrange(8))}
        entries = {name: some_fields(name) for name in sorted(names)}
        view.activate(at, bucket, entries)
        words = [f"activate {at} {bucket_text(bucket)}"] + [entry_text(*entry) for entry in entries.items()]
        return " ".join(words)
    if what < 0.92:
        name = some_id_where(lambda name: at < 32 and view.nodes[at].lies(name))
        fields = some_fields(name)
        view.take(at, name, fields)
        return f"take {at} {entry_text(name, fields)}"
    stops = what < 0.95
    at = random.choice([at, random.randrange(34)])
    if at < 32:
        view.nodes[at].stopped = stops
    return f"{'stop' if stops else 'start'} {at}"


def ask(view):
    """One question to a node, mostly of what some document there has."""
    at = some_node()
    node = view.nodes[at] if at < 32 else Node()
    place, type_name = random.randrange(20), random.choice(["music", "book", "film"])
    field = random.choice(["title", "year", "tags", "marks", "else"])
    if node.rows and random.random() < 0.8:
        place = random.choice(sorted(node.rows))
        type_name = type_of(node.rows[place][0])
        field = random.choice([*node.rows[place][1], field])
    name, fields = node.rows.get(place, ("none", {}))
    what = random.randrange(9)
    if 4 <= what < 8:
        asked = tokens if what < 6 else numbers
        field = random.choice([one for one, value in fields.items() if asked(value)] * 2 + [field])
    token = random.choice(sorted(tokens(fields.get(field))) * 3 + [random.choice(ASKED)])
    number = random.choice(numbers(fields.get(field)) * 3 + [random.randrange(-2, 5)])
    if what == 0:
        lines.append(f"locals {at} = {ids(node.rows)}")
    elif what == 1:
        lines.append(f"document {at} {place} = {name}")
    elif what == 2:
        lines.append(f"value {at} {place} {field} = {told(fields.get(field))}")
    elif what == 3:
        lines.append(f"type {at} {type_name} = {ids(node.where(type_name, lambda fields: True))}")
    elif what < 6:
        found = node.where(type_name, lambda fields: token in tokens(fields.get(field)))
        lines.append(f"token {at} {type_name} {field} {token} = {ids(found)}")
    elif what < 8:
        low, high = number - random.randrange(2), number + random.randrange(-1, 2)
        between = [n for row in node.rows.values() if type_of(row[0]) == type_name
                   for n in numbers(row[1].get(field)) if low <= n <= high]
        answer = "None"
        if between:
            least = min(between)
            answer = f"Some(({least}, {ids(node.where(type_name, lambda fields: least in numbers(fields.get(field))))}))"
        lines.append(f"next {at} {type_name} {field} {low} {high} = {answer}")
    else:
        version = random.choice([node.version, random.randrange(5)])
        serves = at < 32 and node.version == version and not node.stopped
        lines.append(f"serves {at} {version} = {'true' if serves else 'false'}")


def changes(seed, many):
    random.seed(seed)
    view = View()
    lines.append("begin = done")
    for count in range(many):
        newest = min(4, 6 * count // many)
        lines.append(f"{change(view, newest)} = done")
        ask(view)
        if count % 5 == 4:
            search(view, random.choice([view.nodes[at].version for at in [0, 0, 1, 1, 2, 31]] + [newest]))
        if count % 10 == 9:
            for at in [0, 1, 2, 31]:
                lines.append(f"locals {at} = {ids(view.nodes[at].rows)}")
                places = sorted(view.nodes[at].rows)
                if places:
                    name = view.nodes[at].rows[places[-1]][0]
                    lines.append(f"key {at} {places[-1]} = Some({key_of(name)})")
            lines.append(f"measure {newest} = {view.measure(newest)}")
            lines.append(f"generation = {view.generation}")
        if count % 50 == 45:
            lines.append("copy = done")


for each in (1, 2, 3):
    changes(each, 200)
with open("crates/search_tables/data/random_views", "w") as file:
    file.write(HEAD + "\n" + "\n".join(lines) + "\n")
