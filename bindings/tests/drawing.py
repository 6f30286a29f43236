"""Random tables, values and contexts, and what the formats say of them, by the second implementation (vectors/second.py)."""
from reference import second

NAMES = ("id tags hops debug load zone items cart_total x y2 _z Upper typeof type class match self fn let int float_ none range new value data "
         "exact length default func chan go_ async await impl yield_ with from_ is_set k v size operator template this namespace").split()
NUMBERS = [0, 1, 2, 3, 7, 8, 63, 64, 127, 128, 200, 16_383, 16_384, 65_535]
TEXTS = ["", "a", "ab", "b", "a\0b", "\0", "\0\1", "\x7f", "\n", '"', "\\", 'C:\\x41"\n', "é", "\u2028", "\U0001f600", "0x", "{", ",", "x" * 40]
PIECES = [b"", b"a", b"ab", b"\0", b"\0\1", b"\0\xff", b"\xff", b"a\0b", b"\x7f\x80", b"x" * 130]


class Draw:
    """What is drawn, from one source of chance."""

    def __init__(self, chance):
        self.chance = chance

    # Tables

    def kind(self):
        if self.chance.random() < 0.25:
            return tuple(self.chance.choice(second.WORDS) for _ in range(self.chance.choice([1, 2, 2, 3])))
        return self.chance.choice(second.WORDS)

    def shape(self, level, fields):
        """A shape whose header has this level, with at most so many fields in a bag."""
        word = self.chance.choice(["taint", "scalar", "scalar", "greatest", "set", "set", "counter", "map", "map", "bag"])
        if level >= 5 and word in ("map", "bag") and self.chance.random() < 0.9 or level >= 14 and word in ("map", "bag", "counter"):
            word = "scalar"
        if word in ("scalar", "greatest", "set"):
            return word, self.kind()
        if word == "map":
            return word, self.chance.choice(second.WORDS), self.shape(level + 1, fields)
        if word == "bag":
            return word, self.fields(level + 1, fields)
        return (word,)

    def fields(self, level=0, most=5):
        """The fields of a bag whose headers have this level."""
        count = self.chance.randrange(most + 1) if level else self.chance.randrange(1, most + 1)
        numbers = sorted(self.chance.sample(NUMBERS, count))
        names = self.chance.sample([name for name in NAMES if name not in second.RESERVED], count)
        return tuple((number, name, self.shape(level, max(most - 2, 1))) for number, name in zip(numbers, names))

    # Values, as the second implementation has them

    def word(self, word):
        draw = self.chance
        if word == "bool":
            return draw.random() < 0.5
        if word == "string":
            return draw.choice(TEXTS).encode()
        if word == "bytes":
            return draw.choice(PIECES)
        low, high = second.RANGES[word]
        near = [low, low + 1, high - 1, high - 2, 0, 1, 63, 64, 127, 128, 8191, 8192, 2**20, 2**31, 2**32 - 1, 2**47, 2**48, 2**63 - 1, -1, -64, -65, -2**48]
        return draw.choice([number for number in near if low <= number < high])

    def spelled(self, kind):
        return second.spell_kind(kind, self.word(kind) if isinstance(kind, str) else tuple(map(self.word, kind)))

    def value(self, shape):
        draw = self.chance
        if shape[0] == "taint":
            return draw.random() < 0.6
        if shape[0] in ("scalar", "greatest"):
            return self.spelled(shape[1]) if draw.random() < 0.8 else None
        if shape[0] == "set":
            return frozenset(self.spelled(shape[1]) for _ in range(draw.choice([0, 1, 2, 4])))
        if shape[0] == "counter":
            return {draw.choice(PIECES): draw.choice([0, 1, 127, 128, 2**32, 2**64 - 1]) for _ in range(draw.choice([0, 1, 2, 3]))}
        if shape[0] == "map":
            return {second.spell(shape[1], self.word(shape[1])): self.value(shape[2]) for _ in range(draw.choice([0, 1, 2, 3]))}
        return tuple(self.value(inner) for _, _, inner in sorted(shape[1]))

    def encoding(self, fields):
        """The atoms of a bag's random value."""
        return second.merge([second.encoding(shape, at, self.value(shape)) for _, at, shape in second.slots_of(fields)])

    # Contexts

    def foreign(self):
        """Atoms that a table may or may not have fields for."""
        draw, atoms = self.chance, []
        for _ in range(draw.choice([1, 2])):
            path = []
            for level in range(draw.choice([1, 2, 3])):
                first = 0xF8 - 8 * level
                path.append(bytes([first]) + second.put_unsigned(draw.choice(NUMBERS + [70_000])) if draw.random() < 0.6
                            else bytes([first + 1]) + draw.choice(PIECES))
            datum = b"\0" + draw.choice([b"", b"\0", b"\1", b"a", b"\x80", b"\xf8", b"a\0\1"])
            atoms = second.merge([atoms, path + [datum] * (draw.random() < 0.8)])
        return atoms

    def below(self, fields):
        """A well-formed list in which something that isn't a value may stand below a slot."""
        slots = list(second.slots_of(fields))
        _, at, _ = self.chance.choice(slots)
        path, level = list(at), len(at)
        for _ in range(self.chance.choice([0, 1, 1, 2])):
            if level < 15:
                first = 0xF8 - 8 * level
                path.append(bytes([first + 1]) + self.chance.choice(PIECES) if self.chance.random() < 0.7 else bytes([first]) + second.put_unsigned(self.chance.choice(NUMBERS)))
                level += 1
        return path + [b"\0" + self.chance.choice([b"", b"\0", b"\1", b"\x80", b"a", b"\0\1", b"\xff" * 9])] * (self.chance.random() < 0.7)

    def context(self, fields):
        """The atoms of a context: what several services said, perhaps not yet in normal form, perhaps cut, perhaps with foreign atoms."""
        draw = self.chance
        slots = list(second.slots_of(fields))
        lists = [self.encoding(fields) for _ in range(draw.choice([1, 1, 2, 3]))]
        if draw.random() < 0.3:
            lists.append(self.foreign())
        if slots and draw.random() < 0.3:
            lists.append(self.below(fields))
        for place, atoms in enumerate(lists):
            if draw.random() < 0.2:
                lists[place] = second.trim(1, atoms, draw.randrange(1, second.size_of(1, atoms) + 2))
        atoms = second.merge(lists)
        if draw.random() < 0.4:
            atoms = second.normal(slots, atoms)
        if draw.random() < 0.2:
            atoms = second.trim(1, atoms, draw.randrange(1, second.size_of(1, atoms) + 2))
        return atoms


def table_of(fields):
    """The text of the table."""
    return second.print_table(fields)


def is_whole(shape, value):
    """Whether writes say the value: no key of a map stands without one."""
    if shape[0] == "map":
        return all(second.join(shape[2], inner, second.bottom(shape[2])) != second.bottom(shape[2]) and is_whole(shape[2], inner) for inner in value.values())
    if shape[0] == "bag":
        return all(is_whole(inner, part) for (_, _, inner), part in zip(sorted(shape[1]), value))
    return True
