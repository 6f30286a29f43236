// The calls of include/baggage.h, over the WebAssembly module. Each takes and gives bytes, and throws Refused where the library refuses.
'use strict';

const LIBRARY_TEXTS = {
    status: ['done', 'not the bytes of a context', 'room too short', 'out of memory', 'no such form', 'the budget is below the least one',
        'not a table', 'no such field', 'no write', 'ill typed', 'no such choice', 'no such width', 'too long to be carried', 'not the pieces of a context'],
    fault: ['?', 'CutLength', 'BadCount', 'AtomTooLong', 'LongForm', 'CutBody', 'BadPrefix', 'BadIndex', 'LevelJump', 'OutOfOrder'],
    table: ['?', 'Head', 'Form', 'Depth', 'Order', 'DuplicateField', 'TooDeep', 'TooManySlots'],
    pieces: ['?', 'Form', 'PieceRange', 'BadBase64', 'OtherCount', 'Clash', 'NoLine', 'Missing', 'TooManyBytes'],
};
const Status = { OK: 0, FAULT: 1, ROOM: 2, MEMORY: 3, TABLE: 6, TYPE: 9, PIECES: 13 };

/** What the library refused, with the numbers of its answer. */
class Refused extends Error {
    constructor(answer) {
        super(Refused.sentence(answer));
        Object.assign(this, answer);
    }

    static sentence({ status, code, context, offset }) {
        const texts = LIBRARY_TEXTS;
        switch (status) {
            case Status.FAULT: return `${texts.fault[code]} at byte ${offset}`;
            case Status.TYPE: return `the atom at byte ${offset} isn't spelled as the type of its field`;
            case Status.TABLE: return `line ${offset}: ${texts.table[code]}`;
            case Status.PIECES: return code <= 5 ? `line ${offset}: ${texts.pieces[code]}` : `${texts.pieces[code]}${code === 7 ? ` ${offset}` : ''}`;
            default: return texts.status[status] || '?';
        }
    }
}

/** What lies in the module's memory for one call: parts one after another, each at an address that 16 divides. */
class Frame {
    constructor() {
        this.parts = [];
        this.size = 0;
    }

    place(bytes) {
        const at = this.size;
        this.parts.push({ at, bytes });
        this.size = Math.ceil((at + bytes.length) / 16) * 16;
        return at;
    }

    writeTo(memory, base) {
        const all = new Uint8Array(memory.buffer);
        for (const { at, bytes } of this.parts) {
            all.set(bytes, base + at);
        }
    }
}

class Library {
    constructor(module) {
        this.module = module;
        this.start();
    }

    /** A trap leaves the memory in an unknown state, so another instance takes the place of this one. */
    start() {
        this.exports = new WebAssembly.Instance(this.module, {}).exports;
    }

    /** How many atoms these bytes have. */
    check(context) {
        return this.call('check', (call) => [...call.bytes(context)]).size;
    }

    /** The merge of contexts, within a budget; all of it where that is null. */
    join(form, inputs, budget) {
        const total = inputs.reduce((sum, bytes) => sum + bytes.length, 12);
        const most = budget === null ? BigInt('18446744073709551615') : BigInt(budget);
        return this.filling('join', total, (call, room) => [form, ...call.spans(inputs), most, ...call.room(room)]);
    }

    /** The lines that `baggage decode` prints. */
    report(table, context) {
        return this.filling('report', 4096, (call, room) => [1, ...call.bytes(table), ...call.bytes(context), ...call.room(room)]);
    }

    /** The same as a JSON object. */
    reportJson(table, context) {
        return this.filling('report', 4096, (call, room) => [2, ...call.bytes(table), ...call.bytes(context), ...call.room(room)]);
    }

    /** For each slot where its atoms are, and its state: 1 exact, 2 partial, 3 ill typed. */
    places(table, context) {
        const slots = this.checkTable(table), width = 24;
        const { room } = this.call('places', (call) => [...call.bytes(table), ...call.bytes(context), ...call.room(slots * width, slots)]);
        const view = new DataView(room.buffer);
        return Array.from({ length: slots }, (_, k) => ({
            offset: Number(view.getBigUint64(k * width, true)),
            length: Number(view.getBigUint64(k * width + 8, true)),
            state: view.getUint32(k * width + 16, true),
        }));
    }

    /** How many slots a table has. */
    checkTable(table) {
        return this.call('check_table', (call) => [...call.bytes(table)]).size;
    }

    /** The line that `baggage evolve` prints. */
    evolve(old, next) {
        return this.filling('evolve', 256, (call, room) => [...call.bytes(old), ...call.bytes(next), ...call.room(room)]);
    }

    /** The bytes that lines of pieces carry. */
    collect(lines) {
        return this.filling('collect', lines.length, (call, room) => [...call.bytes(lines), ...call.room(room)]);
    }

    /** The lines of pieces that carry a context. */
    carry(context, width) {
        return this.filling('carry', context.length * 2 + 64, (call, room) => [...call.bytes(context), BigInt(width), ...call.room(room)]);
    }

    /** What a call writes into a room, which is made as long as the library says that it must be. */
    filling(name, size, words) {
        let answer = this.call(name, (call) => words(call, size), true);
        if (answer.status === Status.ROOM) {
            answer = this.call(name, (call) => words(call, answer.size));
        }
        return answer.room.slice(0, answer.size);
    }

    call(name, words, isRoomAllowed = false) {
        const call = new Call();
        const answer = this.run(call, name, words(call));
        if (answer.status !== Status.OK && !(isRoomAllowed && answer.status === Status.ROOM)) {
            throw new Refused(answer);
        }
        return answer;
    }

    run(call, name, words) {
        try {
            return call.run(this.exports, `baggage_${name}`, words);
        } catch (error) {
            if (!(error instanceof WebAssembly.RuntimeError)) {
                throw error;
            }
            this.start();
            return { status: Status.MEMORY, code: 0, context: 0, offset: 0, size: 0 };
        }
    }
}

/** The arguments of a call. Addresses are known only once the frame has its place, so each argument is a function of that. */
class Call {
    constructor() {
        this.frame = new Frame();
        this.answerAt = this.frame.place(new Uint8Array(32));
        this.spanList = [];
    }

    bytes(bytes) {
        const at = this.frame.place(bytes);
        return [(base) => BigInt(base + at), BigInt(bytes.length)];
    }

    spans(inputs) {
        this.spanList = inputs.map((bytes) => ({ at: this.frame.place(bytes), length: bytes.length }));
        this.spansAt = this.frame.place(new Uint8Array(16 * inputs.length));
        return [(base) => BigInt(base + this.spansAt), BigInt(inputs.length)];
    }

    room(size, count = size) {
        this.roomAt = this.frame.place(new Uint8Array(size));
        this.roomSize = size;
        return [(base) => BigInt(base + this.roomAt), BigInt(count)];
    }

    run(exports, name, words) {
        const base = Number(exports.baggage_frame(BigInt(this.frame.size)));
        if (base === 0) {
            return { status: Status.MEMORY, code: 0, context: 0, offset: 0, size: 0 };
        }
        this.frame.writeTo(exports.memory, base);
        this.writeSpans(new DataView(exports.memory.buffer), base);
        exports[name](BigInt(base + this.answerAt), ...words.map((word) => (typeof word === 'function' ? word(base) : word)));
        return this.answer(exports.memory, base);
    }

    writeSpans(view, base) {
        this.spanList.forEach(({ at, length }, k) => {
            view.setBigUint64(base + this.spansAt + 16 * k, BigInt(base + at), true);
            view.setBigUint64(base + this.spansAt + 16 * k + 8, BigInt(length), true);
        });
    }

    answer(memory, base) {
        const view = new DataView(memory.buffer, base + this.answerAt, 32);
        const [context, offset, size] = [8, 16, 24].map((at) => Number(view.getBigUint64(at, true)));
        const room = this.roomAt === undefined ? null : new Uint8Array(memory.buffer, base + this.roomAt, this.roomSize).slice();
        return { status: view.getUint32(0, true), code: view.getUint32(4, true), context, offset, size, room };
    }
}

/** The bytes of a packed script. */
async function unpacked(text) {
    const packed = Uint8Array.from(atob(text), (letter) => letter.charCodeAt(0));
    const stream = new Blob([packed]).stream().pipeThrough(new DecompressionStream('gzip'));
    return new Uint8Array(await new Response(stream).arrayBuffer());
}

async function loadLibrary() {
    return new Library(await WebAssembly.compile(await unpacked(BAGGAGE_MODULE)));
}
