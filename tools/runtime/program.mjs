// The program's WebAssembly module in Node; page/program.js is its host.
//
//     node program.mjs MODULE WORD ..     the program, with real files and streams
//     node program.mjs --lines MODULE     a call a line: `words`, `files` by their names and `input` in, `status`, `out` and `err` out; words and bytes in digits
import { readFileSync, writeSync } from 'node:fs';
import { createInterface } from 'node:readline';
import { runInThisContext } from 'node:vm';

const run = runInThisContext(`${readFileSync(new URL('../../page/program.js', import.meta.url), 'utf8')}; runProgram`);
const load = (path) => new WebAssembly.Module(readFileSync(path));
const bytesOf = (digits) => Uint8Array.from(Buffer.from(digits, 'hex'));
const digitsOf = (bytes) => Buffer.from(bytes).toString('hex');

function fileOf(path) {
    try {
        return readFileSync(Buffer.from(path));
    } catch {
        return null;
    }
}

function writeAll(file, bytes) {
    for (let at = 0; at < bytes.length;) {
        at += writeSync(file, bytes, at);
    }
}

function asProgram([path, ...words]) {
    const { status, out, err } = run(load(path), words, fileOf, readFileSync(0));
    writeAll(1, out);
    writeAll(2, err);
    process.exitCode = status;
}

async function byLines(path) {
    const module = load(path);
    for await (const line of createInterface({ input: process.stdin })) {
        const { words, files, input } = JSON.parse(line);
        const held = (name) => (digitsOf(name) in files ? bytesOf(files[digitsOf(name)]) : null);
        const { status, out, err } = run(module, words.map(bytesOf), held, bytesOf(input));
        console.log(JSON.stringify({ status, out: digitsOf(out), err: digitsOf(err) }));
    }
}

const given = process.argv.slice(2);
await (given[0] === '--lines' ? byLines(given[1]) : asProgram(given));
