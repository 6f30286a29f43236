"""What the programs `answers` have to say, by vectors/second.py and Python's own base64 and zlib. No binding is used."""
import base64
import os
import sys
import zlib

sys.path.insert(0, os.path.join(os.path.dirname(os.path.abspath(__file__)), "..", "..", "vectors"))
import second  # noqa: E402

LOST = [b""]


def digits(data):
    return data.hex() or "-"


def bytes_of(word):
    return b"" if word == "-" else bytes.fromhex(word)


def letters(data):
    return base64.urlsafe_b64encode(data).rstrip(b"=")


def to_header(data):
    return letters(data) + b"." + letters(zlib.crc32(data).to_bytes(4, "big"))


def from_part(part):
    """The atoms that a part of a header's value carries."""
    data, dot, check = part.rpartition(b".")
    if not dot or len(check) != 6:
        return LOST
    try:
        read = base64.b64decode(data + b"=" * (-len(data) % 4), altchars=b"-_", validate=True)
        # Encoded again it has to be the same text: no other alphabet, no padding, no bits that aren't used, and the right check.
        return second.read_context(read) if to_header(read) == part else LOST
    except (ValueError, second.BytesFault):
        return LOST


def extract(values):
    return second.merge([from_part(part.strip(b" \t")) for value in values for part in value.split(b",")])


class Refusal(Exception):
    """An answer that begins with `!`."""


def parsed(word):
    try:
        return second.read_context(bytes_of(word))
    except second.BytesFault as fault:
        raise Refusal(f"Fault {fault.offset} {fault.code}") from None


def table_of(word):
    try:
        return second.read_table("t", bytes_of(word))
    except second.Refused as refused:
        _, _, place, code = refused.line.split()
        raise Refusal(f"BadTable {place.partition(':')[0]} {code}") from None


def slots_of(fields):
    return list(second.slots_of(fields))


def check_typed(fields, atoms, number, form=1):
    place = second.first_ill_typed(fields, atoms)
    if place is not None:
        raise Refusal(f"IllTyped {number} {second.offset_of(form, atoms, place)}")


def only(fields, paths):
    """The fields at the paths, with the bags on the way to them."""
    tops = {path for path in paths if "." not in path}
    below = [path.split(".", 1) for path in paths if "." in path]
    kept = []
    for number, name, shape in fields:
        inner = [rest for first, rest in below if first == name]
        if shape[0] == "bag" and inner:
            left = only(shape[1], inner)
            kept.append((number, name, shape if name in tops else ("bag", left)))
        elif inner:
            raise Refusal("NoField 0")
        elif name in tops:
            kept.append((number, name, shape))
    names = {name for _, name, _ in fields}
    if not tops | {first for first, _ in below} <= names:
        raise Refusal("NoField 0")
    return tuple(kept)


def encodings(fields, form, lines):
    """The encodings of the writes in these lines."""
    lists = []
    for number, line in enumerate(lines.split(b"\n")[:-1], 1):
        path, _, text = line.partition(b" ")
        slot = next((slot for slot in second.slots_of(fields) if slot[0].encode() == path), None)
        if slot is None:
            raise Refusal(f"NoField {number}")
        try:
            lists.append(second.encoding(slot[2], slot[1], second.read_write(slot[2], text, form)))
        except second.Code:
            raise Refusal(f"BadWrite {number}") from None
    return lists


def cut(form, atoms, budget):
    return second.trim(form, atoms, max(int(budget), 13 if form == 2 else 1))


def kept(fields, cuts, atoms):
    """What may leave: the image of each path by itself."""
    slots = [at for _, at, _ in slots_of(fields)]
    out = set()
    for path in second.paths_of(atoms):
        owner = path
        while owner and owner[-1] == b"":
            owner = owner[:-1]
        slot = next((at for at in slots if owner[:len(at)] == at), None)
        if slot:
            out |= {path} | {slot[:k] for k in range(1, len(slot))}
        elif path[-1] == b"" or cuts and not any(len(path) < len(at) and at[:len(path)] == path for at in slots):
            before = [at for at in slots if at < owner]
            following = before[-1][:-1] + (following_header(before[-1]),) if before else ()
            out |= {following[:k] for k in range(1, len(following) + 1)} | {following + (b"",)}
    return [path[-1] for path in sorted(out)]


def following_header(at):
    return second.header(len(at) - 1, second.kind_of(at[-1])[2] + 1)


def block(fields, atoms):
    return b"".join(line + b"\n" for line in second.block_lines(fields, 1, atoms))


def shown(atoms):
    return digits(second.write_list(1, atoms))


def of_table(words):
    fields = table_of(words[1])
    call = words[0]
    if call == "only":
        return digits(second.print_table(only(fields, words[2:])).encode())
    if call == "receive":
        data = bytes_of(words[2])
        atoms = parsed(words[2])
        check_typed(fields, atoms, 0, second.form_of(data))
        return shown(second.normal(slots_of(fields), atoms))
    if call == "update":
        form, lists = int(words[2]), [parsed(word) for word in words[5:]]
        written = encodings(fields, form, bytes_of(words[4]))
        for number, atoms in enumerate(lists):
            check_typed(fields, atoms, number)
        atoms = second.normal(slots_of(fields), second.merge(lists + written))
        return shown(atoms if words[3] == "-" else cut(form, atoms, words[3]))
    if call == "set":
        path, text = bytes_of(words[2]), bytes_of(words[3])
        path, text = (b"" if set(path) & set(b" \n") else path), (b"" if b"\n" in text else text)
        return shown(second.normal(slots_of(fields), second.merge(encodings(fields, 1, path + b" " + text + b"\n"))))
    if call == "keep":
        atoms = kept(fields, words[3] == "cut", second.merge([parsed(word) for word in words[5:]]))
        return shown(atoms if words[4] == "-" else cut(int(words[2]), atoms, words[4]))
    atoms = parsed(words[-1])
    if call == "text" and words[2] not in [name for name, _, _ in slots_of(fields)]:
        raise Refusal("NoField 0")
    check_typed(fields, atoms, 0)
    lines = block(fields, atoms)
    if call == "report":
        return digits(lines)
    return next(line for line in lines.decode().split("\n") if line.startswith(words[2] + " ")).split(" ", 1)[1]


def of_contexts(words):
    call = words[0]
    if call == "parse":
        return shown(parsed(words[1]))
    if call == "bytes":
        return digits(second.write_list(int(words[1]), parsed(words[2])))
    if call == "join":
        return shown(second.merge([parsed(word) for word in words[1:]]))
    if call == "cut":
        return shown(cut(int(words[1]), parsed(words[3]), words[2]))
    if call == "to_header":
        return to_header(second.write_list(1, parsed(words[1]))).decode()
    if call == "from_header":
        return shown(extract([bytes_of(words[1])]))
    if call == "from_binary":
        try:
            # A carrier of bytes has no blank context: what it lost would be none.
            return shown(parsed(words[1]) if words[1] != "-" else LOST)
        except Refusal:
            return shown(LOST)
    if call == "extract":
        return shown(extract([bytes_of(word) for word in words[2:]]) if words[2:] else LOST if words[1] == "lost" else [])
    if call == "quote":
        return digits(second.scalar_text("string", bytes_of(words[1])))
    return None


def answer(question):
    words = question.split(" ")
    try:
        found = of_contexts(words)
        return of_table(words) if found is None else found
    except Refusal as refusal:
        return f"! {refusal}"
