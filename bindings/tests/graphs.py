"""Random definitions, contexts, writes and graphs."""
from reference import second

WORDS = second.WORDS
NAMES = ["id", "tags", "hops", "debug", "load", "a", "b1", "_c", "zone", "deep"]


# Definitions

def drawn_kind(draw):
    return draw.choice(WORDS) if draw.random() < 0.75 else tuple(draw.choice(WORDS) for _ in range(draw.randrange(1, 4)))


def drawn_shape(draw, depth):
    kind = draw.choice(["taint", "counter", "scalar", "scalar", "scalar", "greatest", "set", "set", "map", "bag"])
    if kind in ("map", "bag") and depth >= 3:
        kind = "scalar"
    if kind in ("taint", "counter"):
        return (kind,)
    if kind == "map":
        return "map", draw.choice(WORDS), drawn_shape(draw, depth + 1)
    if kind == "bag":
        return "bag", drawn_fields(draw, depth + 1, draw.randrange(4))
    return kind, drawn_kind(draw)


def drawn_fields(draw, depth=0, count=None):
    """The fields of a bag, in order of their numbers."""
    count = draw.randrange(1, 7) if count is None else count
    numbers = sorted(draw.sample([*range(12), 127, 128, 200, 16_383, 16_384, 65_535], count))
    names = draw.sample(NAMES, count)
    return tuple((number, name, drawn_shape(draw, depth)) for number, name in zip(numbers, names))


def paths_of(fields):
    """The paths of all fields that bags lead to."""
    return [path for _, name, shape in fields for path in [name] + [f"{name}.{below}" for below in (paths_of(shape[1]) if shape[0] == "bag" else [])]]


# Writes

def drawn_string(draw):
    return "".join(draw.choice(["a", "b", "c", "x", " ", '"', "\\", "\n", "\0", "\x7f", "\u00e9", "\u20ac", "\U0001f600", "0"]) for _ in range(draw.choice([0, 1, 1, 2, 5])))


def literal(draw, word):
    if word == "bool":
        return draw.choice(["true", "false"])
    if word == "string":
        return second.scalar_text("string", drawn_string(draw).encode()).decode()
    if word == "bytes":
        return "0x" + draw.randbytes(draw.choice([0, 1, 1, 2, 40])).hex()
    low, high = second.RANGES[word]
    edges = [low, low + 1, high - 1, 0, 1, 5, 63, 64, 127, 128, 255, 8_191, 8_192, 2**47, 2**48 - 1, 2**48, -1, -64, -65, -8_193]
    return str(draw.choice([edge for edge in edges if low <= edge < high]))


def kind_literal(draw, kind):
    return literal(draw, kind) if isinstance(kind, str) else "(" + ",".join(literal(draw, word) for word in kind) + ")"


def write_text(draw, shape):
    """A write to a field of this shape; none where a bag without fields is the end of it."""
    if shape[0] == "taint":
        return "on"
    if shape[0] == "counter":
        return f"{literal(draw, draw.choice(['string', 'bytes']))}:{literal(draw, 'uint64')}"
    if shape[0] == "map":
        return f"{literal(draw, shape[1])}:{write_text(draw, shape[2])}"
    if shape[0] == "bag":
        if not shape[1]:
            return ".none=on"
        _, name, inner = draw.choice(shape[1])
        return f".{name}={write_text(draw, inner)}"
    return kind_literal(draw, shape[1])


def drawn_write(draw, fields):
    """A path and a text, nine of ten of them a write."""
    slots = list(second.slots_of(fields))
    if not slots or draw.random() < 0.03:
        return draw.choice(["x", "id.x", "debug", "a.b1"]), "on"
    name, _, shape = draw.choice(slots)
    text = write_text(draw, shape)
    if draw.random() < 0.07:
        at = draw.randrange(len(text))
        text = draw.choice([text[:at] + text[at + 1:], text[:at] + draw.choice('0x:")(,-') + text[at:], draw.choice(["on", "1", "0x", '""', "off", "-"])]) or "-"
    return name, text


# Contexts

def foreign(draw, level):
    """Atoms that stand below headers of the levels before this one, of no definition."""
    marker = lambda: [b""] if draw.random() < 0.08 else []
    atoms = marker()
    for datum in sorted({b"\0" + draw.randbytes(draw.choice([0, 1, 1, 2, 5])) for _ in range(draw.choice([0, 0, 1, 2, 3]))}):
        atoms += [datum] + marker()
    if level < 4:
        headers = {second.header(level, draw.choice([0, 1, 2, 200])) if draw.random() < 0.6 else second.keyed(level, draw.randbytes(draw.choice([0, 1, 2])))
                   for _ in range(draw.choice([0, 1, 1, 2]))}
        for header in sorted(headers):
            atoms += [header] + foreign(draw, level + 1)
    return atoms


def typed(draw, fields):
    """A context that is typed for the fields: writes, foreign atoms where they fit, and now and then a cut."""
    lists = []
    for _ in range(draw.choice([0, 1, 2, 4, 8])):
        name, text = drawn_write(draw, fields)
        slot = next((slot for slot in second.slots_of(fields) if slot[0] == name), None)
        try:
            lists.append(second.encoding(slot[2], slot[1], second.read_write(slot[2], text.encode(), 2)) if slot else [])
        except second.Code:
            pass
    atoms = second.merge(lists)
    if draw.random() < 0.3:
        more = second.merge([atoms, foreign(draw, 0)])
        atoms = more if second.first_ill_typed(fields, more) is None else atoms
    if atoms and draw.random() < 0.25:
        atoms = second.trim(1, atoms, draw.randrange(1, second.size_of(1, atoms) + 1))
    return atoms


# Graphs

class Drawn:
    """The lines of a graph, one after another."""

    def __init__(self, draw, fields):
        self.draw, self.fields, self.lines, self.at, self.services = draw, fields, [], [], []
        for name in "abcd"[:draw.randrange(1, 5)]:
            self.service(name)

    def service(self, name):
        paths = paths_of(self.fields)
        view = self.draw.choice(["all", "none", "only"])
        slots = [slot for slot, _, _ in second.slots_of(self.fields)]
        if view == "only" and paths:
            some = self.draw.sample(paths, self.draw.randrange(1, min(len(paths), 4) + 1))
            view = "only " + " ".join(some)
            slots = [slot for slot in slots if any(slot == path or slot.startswith(path + ".") for path in some)]
        elif view != "all":
            view, slots = "none", []
        form = self.draw.choice([1, 1, 2])
        self.services.append((name, form, slots))
        self.lines.append(f"service{'2' if form == 2 else ''} {name} {view}")

    def write(self, slots):
        while True:
            path, text = drawn_write(self.draw, self.fields)
            if path in slots:
                return path, text

    def step(self):
        draw, step = self.draw, len(self.at)
        kind = draw.choice(["start", "recv", "recv", "set", "set", "set", "branch", "forward", "forward", "join", "join", "trim"]) if step else draw.choice(["start", "recv"])
        parent = draw.randrange(step) if step else None
        service = draw.randrange(len(self.services)) if kind in ("start", "recv", "forward") else self.at[parent]
        name, form, slots = self.services[service]
        if kind == "start":
            line = f"start {step} {name}"
        elif kind == "recv":
            line = f"recv {step} {name} {second.write_list(draw.choice([1, 1, 2]), typed(draw, self.fields)).hex() or '-'}"
        elif kind == "set" and slots:
            line = f"set {step} {parent} " + " ".join(self.write(slots))
        elif kind == "forward":
            line = f"forward {step} {parent} {name}"
        elif kind == "join":
            beside = [other for other in range(step) if self.at[other] == service]
            line = " ".join(["join", str(step), *(str(draw.choice(beside)) for _ in range(draw.randrange(1, 5)))])
        elif kind == "trim":
            line = f"trim {step} {parent} {draw.choice([13, 14, 20, 30, 40, 60, 90, 4_294_967_295]) if form == 2 else draw.choice([1, 2, 5, 9, 20, 30, 50, 80, 4_294_967_295])}"
        else:
            line = f"branch {step} {parent}"
        self.at.append(service)
        self.lines.append(line)


def broken(draw, lines):
    """The lines with one mistake that a graph is refused for, as often as not."""
    at = draw.randrange(len(lines))
    word = lines[at].split(" ")
    kind = draw.randrange(8)
    if kind == 0:
        lines[at] = draw.choice(["x", "start", "start 0", "service", "set 1 0 id", "show x", "trim 1 0 x", "join 3", "branch 1  0", " start 0 a", "start 0 a ", "recv 0 a ",
                                 "set 01 0 id 1", "service all only", "service 1x all", "recv 0 a", "forward 1 0", "service e only .", "show 99999999999"])
    elif kind == 1:
        word[-1] = draw.choice(["0", "7", "99", "a", "z", "-", "00", "0g", "9999999999", "4294967296", "id.x"])
        lines[at] = " ".join(word)
    elif kind == 2:
        lines.insert(at, lines[at])
    elif kind == 3:
        del lines[at]
    elif kind == 4:
        lines[at] = lines[at][:draw.randrange(len(lines[at]) + 1)]
    elif kind == 5 and word[0] == "recv":
        data = bytearray(bytes.fromhex(word[3]) if word[3] != "-" else b"\x07")
        data[draw.randrange(len(data))] = draw.choice([0, 1, 2, 0x80, 0xf0, 0xf8, 0xf9, 0xff])
        lines[at] = " ".join(word[:3] + [data.hex()])
    elif kind == 6:
        lines[at] = lines[at] + draw.choice(["\udcff", "\r", "\u00e9", "\t"])
    else:
        lines.insert(at, draw.choice(["show 0", "service2 z all", "service a none", "trim 1 0 0", "trim 1 0 12", "start 0 zz", "join 1 0 0", "show 1000"]))
    return lines


def drawn_graph(draw):
    """A table's text and a graph's, as bytes; one graph in four has a mistake."""
    fields = drawn_fields(draw)
    graph = Drawn(draw, fields)
    for _ in range(draw.randrange(4, 30)):
        graph.step()
    lines = graph.lines + [f"show {step}" for step in range(len(graph.at)) if draw.random() < 0.7]
    if draw.random() < 0.25:
        lines = broken(draw, lines)
    ends = ["\n", "\r\n"] if draw.random() < 0.1 else ["\n"]
    text = "".join(("# a comment\n\n" if draw.random() < 0.02 else "") + line + draw.choice(ends) for line in lines)
    return second.print_table(fields).encode(), text.encode(errors="surrogateescape")


def report(table, source):
    """What has to be printed: the standard output, the standard error and the status."""
    try:
        return second.report(second.Graph(second.read_table("t", table), source)), b"", 0
    except second.Refused as refused:
        return b"", refused.line.encode() + b"\n", refused.status
