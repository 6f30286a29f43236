"""Drawn questions for the programs `answers`: contexts, tables, writes and header values, most of them good, the others damaged."""
import graphs
import reference
from reference import digits, second

ALPHABET = b"ABCDEFGHIJKLMNOPQRSTUVWXYZabcdefghijklmnopqrstuvwxyz0123456789-_"


def base_128_or_varint(draw, atoms):
    return second.write_list(draw.choice([1, 1, 2]), atoms)


def drawn_bytes(draw):
    """The bytes of a context in either form, one in five damaged."""
    data = bytearray(base_128_or_varint(draw, graphs.foreign(draw, 0)))
    if draw.random() < 0.05:
        return bytes(draw.choice([0, 1, 2, 0x80, 0xf0, 0xf8, 0xf9, 0xff]) for _ in range(draw.randrange(12)))
    if data and draw.random() < 0.2:
        damage(draw, data, [draw.randrange(256)])
    return bytes(data)


def damage(draw, data, letters):
    """One byte is another, lost, doubled or added, or the rest is cut off."""
    at = draw.randrange(len(data))
    kind = draw.randrange(5)
    if kind == 0:
        data[at] = draw.choice(letters)
    elif kind == 1:
        del data[at:]
    elif kind == 2:
        del data[at]
    elif kind == 3:
        data.insert(at, data[at])
    else:
        data.insert(at, draw.choice(letters))


def header_value(draw):
    """A header's value of one to three contexts, half of them damaged."""
    parts = []
    for _ in range(draw.choice([1, 1, 1, 1, 2, 3])):
        data = drawn_bytes(draw)
        part = bytearray(reference.to_header(data))
        if draw.random() < 0.1:
            part += b"=" * draw.choice([1, 2])
        if draw.random() < 0.1:
            at = draw.choice([len(part) - 1, max(len(part) - 8, 0)])  # the last letter of the check or of the data, whose last bits aren't used
            part[at] = ALPHABET[ALPHABET.find(part[at]) ^ draw.choice([1, 1, 2, 3])]
        if draw.random() < 0.1:
            part = bytearray(part.replace(b"-", b"+").replace(b"_", b"/"))
        parts.append(draw.choice([b"", b"", b" ", b"\t", b"  "]) + bytes(part) + draw.choice([b"", b"", b"", b" ", b"\t "]))
    value = bytearray(b",".join(parts))
    if value and draw.random() < 0.5:
        for _ in range(draw.choice([1, 1, 1, 2, 5])):
            if value:
                damage(draw, value, list(ALPHABET) + list(b"+/=.,;: \t\r\n\0\x7f\xc3\xff"))
    return bytes(value)


def header_question(draw):
    kind = draw.random()
    if kind < 0.8:
        return f"from_header {digits(header_value(draw))}"
    if kind < 0.9:
        values = [digits(header_value(draw)) for _ in range(draw.randrange(4))]
        return " ".join(["extract", draw.choice(["empty", "lost"]), *values])
    return f"{draw.choice(['to_header', 'from_binary', 'from_binary'])} {digits(drawn_bytes(draw))}"


def drawn_table(draw):
    """A table's text and its fields; one in twelve is damaged, and then has no fields."""
    fields = graphs.drawn_fields(draw)
    text = second.print_table(fields).encode()
    if draw.random() < 1 / 12:
        data = bytearray(text)
        damage(draw, data, list(b" \n01x(,)bag"))
        try:
            text.decode("ascii")
            return bytes(data), second.read_table("t", bytes(data))
        except second.Refused:
            return bytes(data), ()
    return text, fields


def contexts(draw, fields, count):
    return [digits(base_128_or_varint(draw, graphs.typed(draw, fields))) if draw.random() < 0.85 else digits(drawn_bytes(draw)) for _ in range(count)]


def writes(draw, fields, form):
    lines = b""
    for _ in range(draw.choice([0, 1, 1, 2, 3])):
        path, text = graphs.drawn_write(draw, fields)
        lines += f"{path} {text}\n".encode()
    return digits(lines)


def question(draw):
    kind = draw.randrange(15)
    if kind < 5:
        some = [digits(drawn_bytes(draw)) for _ in range(draw.choice([0, 1, 2, 2, 3, 5]))]
        one = digits(drawn_bytes(draw))
        return [f"parse {one}", f"bytes {draw.choice([1, 2])} {one}", " ".join(["join", *some]),
                f"cut {draw.choice([1, 2])} {draw.randrange(40)} {one}", f"quote {digits(graphs.drawn_string(draw).encode())}"][kind]
    text, fields = drawn_table(draw)
    table, slots = digits(text), [name for name, _, _ in second.slots_of(fields)]
    if kind == 5:
        paths = [draw.choice(graphs.paths_of(fields) or ["x"]) for _ in range(draw.randrange(4))]
        return " ".join(["only", table, *paths, *(["x.y"] if draw.random() < 0.1 else [])])
    if kind == 6:
        return f"receive {table} {contexts(draw, fields, 1)[0]}"
    if kind < 10:
        form = draw.choice([1, 1, 2])
        budget = draw.choice(["-", "-", "-", str(draw.randrange(60)), "18446744073709551615"])
        return " ".join(["update", table, str(form), budget, writes(draw, fields, form), *contexts(draw, fields, draw.choice([0, 1, 1, 2, 3]))])
    if kind < 12:
        budget = draw.choice(["-", "-", str(draw.randrange(60))])
        return " ".join(["keep", table, "1", draw.choice(["cut", "unsaid"]), budget, *contexts(draw, fields, draw.choice([0, 1, 1, 2, 3]))])
    if kind == 12:
        return f"text {table} {draw.choice(slots or ['x']) if draw.random() < 0.95 else 'x.y'} {contexts(draw, fields, 1)[0]}"
    if kind == 14:
        path, write = graphs.drawn_write(draw, fields)
        if draw.random() < 0.3:
            line = f"{path} {write}"
            at = draw.randrange(len(line) + 1)
            line = line[:at] + draw.choice([" ", "\n", "\nid 1", " 1\n"]) + line[at:]
            path, write = draw.choice([line.split(" ", 1), (line, write), (path, line)])
        return f"set {table} {digits(path.encode())} {digits(write.encode())}"
    return f"report {table} {contexts(draw, fields, 1)[0]}"


def changed_letters():
    """Three values with each letter changed into each other one, and into signs that stand between letters. None of them may be read."""
    for data in (bytes.fromhex("02f800050000000007"), bytes.fromhex("02f801020061020062"), b"\0\0"):
        value = reference.to_header(data)
        for at, letter in enumerate(value):
            for other in ALPHABET + b".,+/= \t\r\n\0\xff":
                changed = value[:at] + bytes([other]) + value[at + 1:]
                if other != letter:
                    yield f"from_header {digits(changed)}"


def long_questions():
    """Long values, and long data: these are always the same."""
    many = [b"\xf8\x00"] + [b"\0" + number.to_bytes(4, "big") + b"-" * 12 for number in range(3_000)]
    narrow, wide = second.write_list(1, many), second.write_list(1, [b"\xf8\x00", b"\0" + b"x" * 70_000])
    for data in (narrow, wide):
        value = reference.to_header(data)
        yield from (f"from_header {digits(text)}" for text in (value, value[:-1], value[:-8], value[:len(value) // 4 * 2], value[:-1] + b"_", value + b"," + value))
        yield from (f"to_header {digits(data)}", f"bytes 1 {digits(data)}", f"bytes 2 {digits(data)}", f"cut 1 1000 {digits(data)}", f"cut 2 70013 {digits(data)}")
        yield from (f"from_binary {digits(data)}", f"from_binary {digits(data[:-1])}", f"join {digits(narrow)} {digits(data)}", f"extract lost {digits(value)} {digits(value[1:])}")
    for text in (b"," * 3_000, b".AAAAAA," * 500 + b".AAAAAA", b" " * 65_536, b"A" * 65_536, b"=" * 65_536, b"\0" * 65_536, reference.to_header(bytes(500))):
        yield f"from_header {digits(text)}"
