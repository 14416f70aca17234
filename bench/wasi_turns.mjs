// wasi_turns.mjs ROUNDS FILE PROGRAM .. -- WORD ..
//
// Answers FILE by each PROGRAM for WASI (sdtool-wasi.wasm), by turns: a round has one run of each, and the first
// rounds, in which the engine still compiles, do not count. Prints the milliseconds of processor time of each round, a
// line of JSON for each program. The answers have to be the same.
import {createHash} from "node:crypto";
import {readFileSync} from "node:fs";

const FIRST_ROUNDS = 4, ENDED = new Error("the program has ended");
const [rounds, file, ...rest] = process.argv.slice(2);
const end = rest.indexOf("--"), programs = rest.slice(0, end), words = ["sdtool", ...rest.slice(end + 1)];
const input = readFileSync(file);

// What the program calls of WASI: `input` is its standard input, and `take` gets what it writes. It has one slice in
// each call.
function host(memoryOf, take) {
    const view = () => new DataView(memoryOf().buffer);
    const bytes = (at, length) => new Uint8Array(memoryOf().buffer, at, length);
    const slice = (at) => [view().getUint32(at, true), view().getUint32(at + 4, true)];
    const texts = words.map((word) => new TextEncoder().encode(`${word}\0`));
    let read = 0;
    return {
        fd_read(_stream, slices, _count, came) {
            const [at, room] = slice(slices), piece = input.subarray(read, read + room);
            bytes(at, piece.length).set(piece);
            read += piece.length;
            view().setUint32(came, piece.length, true);
            return 0;
        },
        fd_write(_stream, slices, _count, took) {
            const [at, length] = slice(slices);
            take(bytes(at, length));
            view().setUint32(took, length, true);
            return 0;
        },
        args_sizes_get(count, size) {
            view().setUint32(count, texts.length, true);
            view().setUint32(size, texts.reduce((sum, {length}) => sum + length, 0), true);
            return 0;
        },
        args_get(places, at) {
            for (const [number, text] of texts.entries()) {
                view().setUint32(places + 4 * number, at, true);
                bytes(at, text.length).set(text);
                at += text.length;
            }
            return 0;
        },
        proc_exit() { throw ENDED; },
    };
}

function run(module, take) {
    /** @type {any} */
    const exports =
        new WebAssembly.Instance(module, {wasi_snapshot_preview1: host(() => exports.memory, take)}).exports;
    const before = process.cpuUsage();
    try {
        exports._start();
    } catch (error) {
        if (error !== ENDED) throw error;
    }
    const {user, system} = process.cpuUsage(before);
    return (user + system) / 1000;
}

const modules = programs.map((program) => new WebAssembly.Module(readFileSync(program)));
const digests = modules.map((module) => {
    const hash = createHash("sha256");
    run(module, (bytes) => hash.update(bytes));
    return hash.digest("hex");
});
if (digests.some((digest) => digest !== digests[0])) throw new Error("the answers differ");
const times = modules.map(() => []);
for (let round = 0; round < FIRST_ROUNDS + Number(rounds); round += 1)
    modules.forEach((module, at) => {
        const time = run(module, () => {});
        if (round >= FIRST_ROUNDS) times[at].push(time);
    });
for (const one of times) console.log(JSON.stringify(one));
