// faults.mjs FILE
//
// Runs a WASI program many times in a host whose streams fail as ../../shared/faults.c lets those of Linux fail. Each
// line of standard input is a run in JSON: "words", "data" in base64, and "fd", "at", "times", "error", "piece" and
// "takes" as in ../../shared/faults.c, the error by its name. For each a line of JSON tells how it ended: "status",
// "stdout" and "stderr" in base64, and "events", the calls with a letter for each and the bytes that were moved.
import {readFileSync} from "node:fs";
import {createInterface} from "node:readline";

// The numbers of WASI, preview 1.
const ERRORS = {
    EAGAIN: 6,
    EBADF: 8,
    EINTR: 27,
    EIO: 29,
    ENOMEM: 48,
    ENOSPC: 51,
    EPIPE: 64,
    ETIMEDOUT: 73
};
const LETTERS = ["r", "w", "v"];
const MOST_AFTER = 1000, TRIED_FOR_EVER = 99;
const [file] = process.argv.slice(2);
const module = await WebAssembly.compile(readFileSync(file));

// What proc_exit throws, so that nothing of the program goes on.
class Exit extends Error {
    constructor(status) {
        super();
        this.status = status;
    }
}

function run({words, data, fd: failing = -1, at = 0, times = 1, error = "EIO", piece = 0, takes = 0}) {
    const input = Buffer.from(data, "base64"), written = [[], [], []], events = [];
    const texts = ["sdtool", ...words].map((word) => Buffer.from(`${word}\0`));
    let memory, view, has = 0, calls = 0, after = 0;
    const look = () => {
        if (view?.buffer !== memory.buffer) view = new DataView(memory.buffer);
    };

    // Whether this call of a stream is one of those that fail.
    function isFailed(fd) {
        if (after && (after += 1) > MOST_AFTER) throw new Exit(TRIED_FOR_EVER);
        if (fd !== failing || !at) return false;
        calls += 1;
        if (calls < at || (times && calls >= at + times)) return false;
        after ||= 1;
        return true;
    }

    // A call of the one place and size at `slices`; what it moves goes to `moved`.
    function call(fd, slices, count, moved, most, move) {
        if (count !== 1 || fd < 0 || fd > 2) throw new Error("a call of another form");
        look();
        if (isFailed(fd)) {
            events.push([LETTERS[fd].toUpperCase(), 0]);
            view.setUint32(moved, 0, true);
            return error === 0 ? 0 : ERRORS[error];
        }
        const place = view.getUint32(slices, true), size = view.getUint32(slices + 4, true);
        const done = move(place, most ? Math.min(size, most) : size);
        events.push([LETTERS[fd], done]);
        view.setUint32(moved, done, true);
        return 0;
    }

    const host = {
        args_sizes_get(count, size) {
            look();
            view.setUint32(count, texts.length, true);
            view.setUint32(size, texts.reduce((sum, text) => sum + text.length, 0), true);
            return 0;
        },
        args_get(places, room) {
            look();
            texts.forEach((text, index) => {
                view.setUint32(places + 4 * index, room, true);
                new Uint8Array(memory.buffer).set(text, room);
                room += text.length;
            });
            return 0;
        },
        fd_read(fd, slices, count, moved) {
            return call(fd, slices, count, moved, piece, (place, size) => {
                const came = input.subarray(has, has + size);
                new Uint8Array(memory.buffer).set(came, place);
                has += came.length;
                return came.length;
            });
        },
        fd_write(fd, slices, count, moved) {
            return call(fd, slices, count, moved, fd === 1 ? takes : 0, (place, size) => {
                written[fd].push(Buffer.from(memory.buffer.slice(place, place + size)));
                return size;
            });
        },
        proc_exit(status) { throw new Exit(status); },
    };
    const {exports} = new WebAssembly.Instance(module, {wasi_snapshot_preview1: host});
    memory = exports.memory;
    let status;
    try {
        exports._start();
    } catch (ended) {
        status = ended instanceof Exit ? ended.status : `${ended}`;
    }
    const [, stdout, stderr] = written.map((pieces) => Buffer.concat(pieces).toString("base64"));
    return {status, stdout, stderr, events};
}

for await (const line of createInterface({input: process.stdin})) console.log(JSON.stringify(run(JSON.parse(line))));
