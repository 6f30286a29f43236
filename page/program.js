// The program `baggage` over the WebAssembly module, with words, files and streams in memory. tools/runtime/wasm_os.c has what it asks its host for.
'use strict';

const Errno = { NO_FILE: 2, BAD_FILE: 9 };

/** What the module asks for. Files are had by a function from a name to bytes, or to null where there is none. */
class Machine {
    constructor(words, files, input) {
        this.words = words.map((word) => (typeof word === 'string' ? new TextEncoder().encode(word) : word));
        this.files = files;
        this.streams = [{ bytes: input, at: 0 }];
        this.written = { 1: [], 2: [] };
    }

    imports() {
        const numbers = (call) => (...words) => BigInt(call(...words.map(Number)));
        const { word, open, read, write, close } = this;
        const host = { word, open, read, write, close };
        return { host: Object.fromEntries(Object.entries(host).map(([name, call]) => [name, numbers(call.bind(this))])) };
    }

    bytes(at, size) {
        return new Uint8Array(this.memory.buffer, at, size);
    }

    word(number, room, size) {
        const word = this.words[number];
        if (!word) {
            return -1;
        }
        this.bytes(room, size).set(word.subarray(0, size));
        return word.length;
    }

    open(path, length) {
        const bytes = this.files(this.bytes(path, length).slice());
        if (bytes === null) {
            return -Errno.NO_FILE;
        }
        return this.streams.push({ bytes, at: 0 }) + 1; // 1 and 2 are the outputs
    }

    stream(file) {
        return this.streams[file < 3 ? file : file - 2];
    }

    read(file, room, size) {
        const stream = this.stream(file);
        if (!stream) {
            return -Errno.BAD_FILE;
        }
        const part = stream.bytes.subarray(stream.at, stream.at + size);
        this.bytes(room, part.length).set(part);
        stream.at += part.length;
        return part.length;
    }

    write(file, at, size) {
        if (!this.written[file]) {
            return -Errno.BAD_FILE;
        }
        this.written[file].push(this.bytes(at, size).slice());
        return size;
    }

    close() {
        return 0;
    }

    /** What was written to an output. */
    output(file) {
        const parts = this.written[file], all = new Uint8Array(parts.reduce((sum, part) => sum + part.length, 0));
        let at = 0;
        for (const part of parts) {
            all.set(part, at);
            at += part.length;
        }
        return all;
    }
}

/** Runs a command once, in an instance of its own: status, output and the line of errors, as bytes. */
function runProgram(module, words, files, input) {
    const machine = new Machine(['baggage', ...words], files, input);
    const { exports } = new WebAssembly.Instance(module, machine.imports());
    machine.memory = exports.memory;
    const status = exports.baggage_program();
    return { status, out: machine.output(1), err: machine.output(2) };
}

/** The program over texts: its files are a map from names to texts. */
class Program {
    constructor(module) {
        this.module = module;
    }

    /** What a command prints: `out`, or the line that refuses it, with its status. */
    run(words, files, input) {
        const decoder = new TextDecoder(), encoder = new TextEncoder();
        const fileOf = (path) => {
            const text = files.get(decoder.decode(path));
            return text === undefined ? null : encoder.encode(text);
        };
        const { status, out, err } = runProgram(this.module, words, fileOf, encoder.encode(input));
        return { status, out: decoder.decode(out), refused: decoder.decode(err).trim() };
    }
}

async function loadProgram() {
    return new Program(await WebAssembly.compile(await unpacked(BAGGAGE_PROGRAM)));
}
