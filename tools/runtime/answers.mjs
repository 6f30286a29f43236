// What the WebAssembly module answers: node answers.mjs MODULE <CALLS. A line of the input is a call as tools/fuzz/tell writes it, with the size of the room; a line
// of the output has the five numbers of the answer and the bytes of the room, or `null` where the module has no memory for the arguments. After a trap the module
// is made anew, and the line is the trap's name.
import { readFileSync } from 'node:fs';
import { createInterface } from 'node:readline';

const ANSWER = 32, SPAN = 16, PLACE = 24, NUMBER = 8, STEP = 16, CANARY = 0xee;

// The arguments of each call, in their order.
const CALLS = {
    check: 'context',
    join: 'form inputs budget room',
    update: 'form table inputs text budget room',
    keep: 'form choice table inputs budget room',
    places: 'table context places',
    report: 'choice table context room',
    read_field: 'table context name room',
    write_field: 'form table name text room',
    check_table: 'table',
    evolve: 'table next room',
    carry: 'context width room',
    collect: 'text room',
    chosen_places: 'table chosen context places',
    quote: 'choice text room',
};

// What lies in a frame: each part at an address that 16 divides, one after another.
class Frame {
    #parts = [];
    size = 0;

    place(bytes) {
        const at = this.size;
        this.#parts.push([at, bytes]);
        this.size = Math.ceil((at + bytes.length) / STEP) * STEP;
        return at;
    }

    writeTo(memory, base) {
        const all = new Uint8Array(memory.buffer);
        for (const [at, bytes] of this.#parts) {
            all.set(bytes, base + at);
        }
    }
}

const bytesOf = (digits) => Uint8Array.from(Buffer.from(digits, 'hex'));

// Where each input lies is known only with the base, so spans are written in a second pass.
class Call {
    #frame = new Frame();
    #answer = this.#frame.place(new Uint8Array(ANSWER));
    #spans = [];
    #room;

    constructor(it) {
        this.name = it.call;
        this.words = CALLS[it.call].split(' ').map((word) => this.#argument(word, it));
    }

    #argument(word, it) {
        switch (word) {
            case 'form':
            case 'choice':
                return () => [it[word]];
            case 'budget':
            case 'width':
                return () => [BigInt(it[word])];
            case 'inputs':
                return this.#inputs(it.inputs.map(bytesOf));
            case 'context':
                return this.#bytes(bytesOf(it.inputs[0] ?? ''));
            case 'chosen':
                return this.#bytes(bytesOf(it.chosen), NUMBER);
            case 'room':
            case 'places':
                return this.#roomOf(it.room, word === 'places' ? PLACE : 1);
            default:
                return this.#bytes(bytesOf(it[word]));
        }
    }

    #bytes(bytes, unit = 1) {
        const at = this.#frame.place(bytes);
        return (base) => [BigInt(base + at), BigInt(bytes.length / unit)];
    }

    #inputs(inputs) {
        this.#spans = inputs.map((bytes) => [this.#frame.place(bytes), bytes.length]);
        const at = this.#frame.place(new Uint8Array(SPAN * inputs.length));
        this.#spans.at = at;
        return (base) => [BigInt(base + at), BigInt(inputs.length)];
    }

    // The bytes after the room are no room: none of them may change.
    #roomOf(size, unit) {
        const at = this.#frame.place(new Uint8Array(size + 64).fill(CANARY));
        this.#room = [at, size];
        return (base) => [BigInt(base + at), BigInt(Math.floor(size / unit))];
    }

    run(exports) {
        const base = Number(exports.baggage_frame(BigInt(this.#frame.size)));
        if (base === 0) {
            return null;
        }
        this.#frame.writeTo(exports.memory, base);
        const before = new DataView(exports.memory.buffer);
        this.#spans.forEach(([at, length], k) => {
            before.setBigUint64(base + this.#spans.at + SPAN * k, BigInt(base + at), true);
            before.setBigUint64(base + this.#spans.at + SPAN * k + 8, BigInt(length), true);
        });
        exports[`baggage_${this.name}`](BigInt(base + this.#answer), ...this.words.flatMap((word) => word(base)));
        return this.#told(exports.memory, base);
    }

    #told(memory, base) {
        const view = new DataView(memory.buffer, base + this.#answer, ANSWER);
        const told = [view.getUint32(0, true), view.getUint32(4, true), ...[8, 16, 24].map((at) => Number(view.getBigUint64(at, true)))];
        if (!this.#room) {
            return { told, room: '' };
        }
        const [at, size] = this.#room, room = new Uint8Array(memory.buffer, base + at, size + 64);
        return { told, room: Buffer.from(room.subarray(0, size)).toString('hex'), after: room.subarray(size).every((byte) => byte === CANARY) };
    }
}

const module = new WebAssembly.Module(readFileSync(process.argv[2]));
const start = () => new WebAssembly.Instance(module, {}).exports;
let exports = start();
const out = [];
for await (const line of createInterface({ input: process.stdin })) {
    const call = new Call(JSON.parse(line));
    try {
        out.push(JSON.stringify(call.run(exports)));
    } catch (error) {
        out.push(JSON.stringify(String(error)));
        exports = start();
    }
}
process.stdout.write(out.join('\n') + '\n');
