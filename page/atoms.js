// The atoms of a context with what each means, as docs/FORMATS.md has the bytes and the text of a table. It reads only what the library has accepted.
'use strict';

const Table = (() => {
    /** The words of a shape as a value: its kind, and what is inside. */
    function shapeOf(words) {
        const [kind, ...rest] = words;
        return kind === 'map' ? { kind, key: rest[0], value: shapeOf(rest.slice(1)) } : { kind, type: rest[0], fields: [] };
    }

    /** The bag that a shape ends in, or null. */
    function bagOf(shape) {
        return shape.kind === 'map' ? bagOf(shape.value) : shape.kind === 'bag' ? shape : null;
    }

    /** The slots of a bag's fields: those that are no bags, reached through bags alone. */
    function slotsOf(fields, way) {
        return fields.flatMap((field) => {
            const path = [...way, field.name];
            return field.shape.kind === 'bag' ? slotsOf(field.shape.fields, path) : [{ field, path: path.join('.') }];
        });
    }

    /** The fields of a table's text, which the library has accepted. Each has the line that names it and the place of its outermost field. */
    function read(text) {
        const root = { kind: 'bag', fields: [] }, bags = [root];
        text.split('\n').slice(1, -1).forEach((line, k) => {
            const [depth, number, name, ...words] = line.split(' ');
            const field = { number: BigInt(number), name, words: words.join(' '), shape: shapeOf(words), line: k + 1, depth: Number(depth) };
            const fields = bags[Number(depth)].fields;
            field.outer = Number(depth) ? root.fields[root.fields.length - 1].outer : fields.length;
            fields.push(field);
            bags[Number(depth) + 1] = bagOf(field.shape);
        });
        return { root, slots: slotsOf(root.fields, []) };
    }

    /** The text without the lines of these fields and of what is inside them. */
    function without(text, fields) {
        const lines = text.split('\n'), gone = new Set(fields.map((field) => field.line));
        let inside = null;
        return lines.filter((line, k) => {
            const depth = Number(line.split(' ')[0]);
            if (k === 0 || k === lines.length - 1) {
                return true;
            }
            if (inside !== null && depth > inside) {
                return false;
            }
            inside = gone.has(k) ? depth : null;
            return inside === null;
        }).join('\n');
    }

    return { read, without };
})();

const Atoms = (() => {
    const HEAD = 12;

    const isFormTwo = (bytes) => bytes.length >= 4 && bytes[0] === 0xff && bytes[1] === 0xff && bytes[2] === 0xff && bytes[3] === 2;

    /** How many ones a byte begins with. */
    const ones = (byte) => Math.clz32((~byte & 0xff) << 24 || 0) - (byte === 0xff ? 24 : 0);

    /** An unsigned varint: its number, and where it ends. */
    function unsigned(bytes, at) {
        const follow = ones(bytes[at]);
        let value = BigInt(bytes[at] & (0x7f >> follow));
        for (let k = 1; k <= follow; k++) {
            value = (value << BigInt(8)) | BigInt(bytes[at + k]);
        }
        return { value, end: at + follow + 1 };
    }

    /** A length of form one: seven bits a byte, least significant first. */
    function shortLength(bytes, start) {
        let at = start, value = 0, shift = 0;
        do {
            value |= (bytes[at] & 0x7f) << shift;
            shift += 7;
        } while (bytes[at++] & 0x80);
        return { value, end: at };
    }

    function lengthAt(bytes, at, isTwo) {
        const { value, end } = isTwo ? unsigned(bytes, at) : shortLength(bytes, at);
        return { value: Number(value), end };
    }

    // ---- values

    function signed(bytes, at) {
        const isNegative = bytes[at] < 0x80;
        const turned = isNegative ? bytes.map((byte) => byte ^ 0xff) : bytes;
        const follow = ones(turned[at]) - 1, isLong = follow >= 7, length = isLong ? 8 : follow;
        let value = isLong ? BigInt(0) : BigInt(turned[at] & (0x3f >> follow));
        for (let k = 1; k <= length; k++) {
            value = (value << BigInt(8)) | BigInt(turned[at + k]);
        }
        return { value: isNegative ? -BigInt(1) - value : value, end: at + length + 1 };
    }

    function fixed(bytes, at, length, isSigned) {
        let value = BigInt(0);
        for (let k = 0; k < length; k++) {
            value = (value << BigInt(8)) | BigInt(bytes[at + k]);
        }
        return { value: isSigned ? value - (BigInt(1) << BigInt(8 * length - 1)) : value, end: at + length };
    }

    /** A string or bytes inside a struct: `ff` after each zero byte, `00 01` at the end. */
    function escaped(bytes, start) {
        const out = [];
        let at = start;
        while (!(bytes[at] === 0 && bytes[at + 1] === 1)) {
            if (at >= bytes.length) {
                throw new RangeError('it has no end');
            }
            out.push(bytes[at]);
            at += bytes[at] === 0 ? 2 : 1;
        }
        return { value: Uint8Array.from(out), end: at + 2 };
    }

    function quoted(bytes) {
        const text = new TextDecoder('utf-8', { fatal: true, ignoreBOM: true }).decode(bytes);
        // eslint-disable-next-line no-control-regex
        return `"${text.replace(/[\\"]/g, '\\$&').replace(/[\x00-\x1f\x7f]/g, (it) => `\\x${it.charCodeAt(0).toString(16).padStart(2, '0')}`)}"`;
    }

    const digits = (bytes) => `0x${Carriers.toHex(bytes)}`;

    /** The text of a word and where it ends. */
    function word(type, bytes, at, isInside) {
        switch (type) {
            case 'bool': return { text: bytes[at] ? 'true' : 'false', end: at + 1 };
            case 'string':
            case 'bytes': {
                const { value, end } = isInside ? escaped(bytes, at) : { value: bytes.slice(at), end: bytes.length };
                return { text: type === 'string' ? quoted(value) : digits(value), end };
            }
            default: {
                const { value, end } = /^s?fixed/.test(type) ? fixed(bytes, at, type.endsWith('32') ? 4 : 8, type[0] === 's')
                    : type[0] === 'u' ? unsigned(bytes, at) : signed(bytes, at);
                return { text: String(value), end };
            }
        }
    }

    function valueText(type, bytes) {
        const isStruct = type[0] === '(';
        let at = 0;
        const texts = (isStruct ? type.slice(1, -1).split(',') : [type]).map((one) => {
            const { text, end } = word(one, bytes, at, isStruct);
            at = end;
            return text;
        });
        if (at !== bytes.length) {
            throw new RangeError('the bytes don’t end with the value');
        }
        return isStruct ? `(${texts.join(',')})` : texts[0];
    }

    /** Bytes as digits, with letters beside them where they are printable. */
    function shown(bytes) {
        const isPrintable = bytes.length && bytes.every((byte) => byte >= 0x20 && byte < 0x7f);
        return digits(bytes) + (isPrintable ? ` ${quoted(bytes)}` : '');
    }

    /** The text by a type, or digits where the bytes are no spelling of it: then the library calls the atom ill typed. */
    function textBy(type, bytes) {
        try {
            return type === undefined ? shown(bytes) : valueText(type, bytes);
        } catch (error) {
            return shown(bytes);
        }
    }

    // ---- meanings

    const inside = (shape, number) => (shape && shape.kind === 'bag' && shape.fields.find((field) => field.number === number)) || null;

    /** What a header with a number is. */
    function field(shape, number) {
        const it = inside(shape, number);
        const said = it ? { name: it.name, note: it.words, below: it.shape } : { name: `field ${number}`, note: '', below: null };
        return { kind: 'header', word: 'field', number, ...said };
    }

    /** What a header with a key is: of a counter its writer, of a map its key. */
    function key(shape, bytes) {
        const kind = shape && shape.kind;
        const text = textBy(kind === 'map' ? shape.key : undefined, bytes);
        return { kind: 'header', word: kind === 'counter' ? 'writer' : 'key', name: text, note: '',
            below: kind === 'map' ? shape.value : kind === 'counter' ? { kind: 'count' } : null };
    }

    function datum(shape, bytes) {
        const kind = shape && shape.kind, isTyped = kind === 'scalar' || kind === 'greatest' || kind === 'set';
        const name = kind === 'taint' && !bytes.length ? 'on' : textBy(isTyped ? shape.type : kind === 'count' ? 'uint64' : undefined, bytes);
        return { kind: 'data', word: kind === 'count' ? 'count' : 'value', name, note: '' };
    }

    const MARKER = { kind: 'marker', word: 'marker', name: 'marker', note: 'what stood here and after may have been cut off' };

    /** The number of the outermost field that each atom is of, in the order of the table, and after it in the order in which they come. */
    class Outer {
        constructor(root) {
            this.numbers = root ? root.fields.map((it) => it.number) : [];
        }

        of(number) {
            if (!this.numbers.includes(number)) {
                this.numbers.push(number);
            }
            return this.numbers.indexOf(number);
        }
    }

    function meaningOf(body, way, root) {
        if (!body.length) {
            return { ...MARKER, level: way.length };
        }
        const level = body[0] < 0x80 ? way.length : (0xff - body[0]) >> 3;
        const above = level ? way[level - 1].below : root;
        const it = body[0] < 0x80 ? datum(above, body.slice(1)) : body[0] & 1 ? key(above, body.slice(1)) : field(above, unsigned(body, 1).value);
        return { ...it, level };
    }

    /** All atoms of a context: where each is, its bytes, what it means, and the path that tells it from all others. */
    function read(bytes, table) {
        const isTwo = isFormTwo(bytes), atoms = [], outer = new Outer(table && table.root);
        let at = isTwo ? HEAD : 0, way = [], colour = null, paths = [];
        while (at < bytes.length) {
            const { value, end } = lengthAt(bytes, at, isTwo);
            const body = bytes.slice(end, end + value), it = meaningOf(body, way, table && table.root);
            if (it.kind === 'header') {
                colour = it.level || it.number === undefined ? colour : outer.of(it.number);
                way = [...way.slice(0, it.level), it];
                paths = [...paths.slice(0, it.level), Carriers.toHex(body)];
            }
            const path = [...paths.slice(0, it.level), ...(it.kind === 'header' ? paths.slice(it.level) : [Carriers.toHex(body)])].join('/');
            atoms.push({ ...it, at, lengthBytes: bytes.slice(at, end), body, size: end + value - at, colour: way.length ? colour : null, path });
            at = end + value;
        }
        return atoms;
    }

    return { read, isFormTwo, HEAD };
})();
