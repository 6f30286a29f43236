"""Headers of strangers, and what comes in of them, by vectors/second.py: each field of the table is read and laid out anew. No package is used."""
import os
import sys

sys.path.insert(0, os.path.dirname(os.path.dirname(os.path.abspath(__file__))))
from drawing import Draw, table_of  # noqa: E402
from reference import LOST, digits, from_part, only, second, to_header  # noqa: E402

LIMITS = {"letters": 8192, "parts": 16, "text": 1024, "budget": 3000, "drops": 0}


class Letting:
    """What comes in of one field, within the limits."""

    def __init__(self, limits):
        self.letters, self.text = limits["letters"], min(limits["text"], limits["letters"])
        self.stays = False

    def has(self, literal, used):
        """Whether a literal comes in that stands after so many letters of keys and names."""
        is_in = len(literal) <= self.text and used <= self.letters
        self.stays |= not is_in
        return is_in

    def value(self, shape, value, used=0):
        """What comes in of a value, and how many writes say it."""
        if shape[0] == "taint":
            is_in = value and self.has(b"on", used)
            return is_in, int(is_in)
        if shape[0] in ("scalar", "greatest"):
            is_in = value is not None and self.has(second.kind_text(shape[1], value), used)
            return (value if is_in else None), int(is_in)
        if shape[0] == "set":
            kept = frozenset(element for element in value if self.has(second.kind_text(shape[1], element), used))
            return kept, len(kept)
        if shape[0] == "bag":
            parts = [self.value(inner, part, used + len(name) + 2) for (_, name, inner), part in zip(sorted(shape[1]), value)]
            return tuple(part for part, _ in parts), sum(count for _, count in parts)
        return self.entries(shape, value, used)

    def entries(self, shape, value, used):
        kept, counts = {}, 0
        for key, part in value.items():
            literal = b"0x" + key.hex().encode() if shape[0] == "counter" else second.scalar_text(shape[1], second.unspell(shape[1], key))
            below = used + len(literal) + 1
            outside = self.letters + 1 if len(literal) > self.text else below
            if shape[0] == "counter":
                part, count = part, int(self.has(b"%d" % part, outside))
            else:
                part, count = self.value(shape[2], part, outside)
            self.stays |= not count
            counts += count
            if count:
                kept[key] = part
        return kept, counts


def let_in(fields, limits, values):
    """The bytes of what comes in."""
    parts = [part.strip(b" \t") for value in values for part in value.split(b",")]
    read = [(part, from_part(part)) for part in parts[:limits["parts"]]]
    # A part that says that it was lost is a context; one that can't be read isn't.
    whole = len(parts) == len(read) and all(atoms != LOST or part == to_header(b"\0") for part, atoms in read)
    if sum(map(len, values)) > limits["letters"]:
        read, whole = [], False
    came = second.merge([atoms for _, atoms in read] + ([] if whole else [LOST]))
    slots, inside = list(second.slots_of(fields)), []
    for name, at, shape in slots:
        with_it, is_in = with_field(only(fields, [name]), inside, came, at, shape, limits)
        whole &= is_in
        if not limits["drops"] or is_in and second.size_of(1, with_it) <= limits["budget"]:
            inside = with_it
    if not limits["drops"] and not (whole and inside == second.normal(slots, came)):
        inside = second.merge([inside, LOST])
    return second.write_list(1, second.trim(1, inside, limits["budget"]))


def with_field(alone, inside, came, at, shape, limits):
    """What is inside with one field of what came, and whether all of it is in."""
    if second.first_ill_typed(alone, came) is not None:
        return inside, False
    paths = second.paths_of(came)
    value = second.read_slot(paths, at, shape)
    if value == second.bottom(shape):
        return inside, True
    if limits["drops"] and not second.is_ended(paths, at) or len(second.value_text(shape, value)) > 4 * limits["letters"]:
        return inside, False
    letting = Letting(limits)
    kept, _ = letting.value(shape, value)
    return second.normal([(None, at, shape)], second.merge([inside, second.encoding(shape, at, kept)])), not letting.stays


class Strangers(Draw):
    """Drawn headers, most of them hostile."""

    def part(self, fields):
        chance, data = self.chance, second.write_list(self.chance.choice([1, 1, 1, 2]), self.context(fields))
        if chance.random() < 0.05:
            data = bytes(chance.randrange(256) for _ in range(chance.randrange(20)))
        if chance.random() < 0.1:
            data += b"\0"  # said to be cut, or damaged
        text = bytearray(to_header(data))
        if chance.random() < 0.06:
            text[chance.randrange(len(text))] = chance.choice(b"A~.= ,\n\xff")
        if chance.random() < 0.03:
            del text[chance.randrange(len(text)):]
        return chance.choice([b"", b"", b" ", b"\t "]) + bytes(text)

    def values(self, fields):
        chance = self.chance
        count = chance.choice([0] + [1] * 12 + [2, 3])
        values = [b",".join(self.part(fields) for _ in range(chance.choice([1] * 9 + [2, 3]))) for _ in range(count)]
        if values and chance.random() < 0.02:
            values.append(b"," * chance.randrange(200))
        return values

    def limits(self):
        chance, limits = self.chance, dict(LIMITS, drops=int(self.chance.random() < 0.5))
        if chance.random() < 0.4:
            limits.update(letters=chance.choice([0, 60, 400, 2000]), parts=chance.choice([0, 1, 2, 16]), text=chance.choice([0, 3, 8, 40]), budget=chance.choice([1, 20, 100, 400]))
        return limits

    def question(self):
        """A question for the programs, and its answer."""
        fields = self.fields()
        limits, values = self.limits(), self.values(fields)
        words = [digits(table_of(fields).encode())] + [str(limits[name]) for name in LIMITS] + [digits(value) for value in values]
        return " ".join(words), digits(let_in(fields, limits, values))
