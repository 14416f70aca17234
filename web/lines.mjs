// Answers a file of any size, a piece at a time, each of whole lines. The program answers line by line, so the
// answers to the pieces, one after the other, are its answers to the file.

const PIECE = 1 << 20; // how much is read at once
// A line beyond the longest limit has one answer, however it goes on, so no more of it is kept.
const MOST_OF_A_LINE = 1_100_000;
const MOST_LINES = 1_000_000; // in the table; all are answered and saved
const LF = 10;
const FLAGS = {
    error: 1,
    change: 2,
    noDacl: 4,
    empty: 8
};

const joined = (pieces) => {
    const whole = new Uint8Array(pieces.reduce((length, piece) => length + piece.length, 0));
    let at = 0;
    for (const piece of pieces) {
        whole.set(piece, at);
        at += piece.length;
    }
    return whole;
};

// Collects the bytes that come, and gives them on as whole lines.
class Lines {
    constructor() {
        this.kept = [];
        this.length = 0;
    }

    keep(bytes) {
        const room = MOST_OF_A_LINE - this.length;
        if (bytes.length > 0 && room > 0) {
            this.kept.push(bytes.slice(0, room));
            this.length += Math.min(room, bytes.length);
        }
    }

    // The whole lines up to the last LF of the bytes, at END; what follows it is kept.
    push(bytes, end) {
        if (end === 0) {
            this.keep(bytes);
            return null;
        }
        // The line that was begun may be cut, but its LF is not.
        const first = bytes.indexOf(LF);
        this.keep(bytes.subarray(0, first));
        const whole = joined([...this.kept, bytes.subarray(first, end)]);
        this.kept = [];
        this.length = 0;
        this.keep(bytes.subarray(end));
        return whole;
    }

    rest() { return joined(this.kept); }
}

// Where each answer begins: a line each, but a block that ends with 'end', an error or an empty line under explain.
function startsOf(output, isExplained) {
    const starts = [];
    let [start, line] = [0, 0];
    for (let at = output.indexOf(LF); at >= 0; at = output.indexOf(LF, at + 1)) {
        if (!isExplained || isLastOfBlock(output, line, at)) {
            starts.push(start);
            start = at + 1;
        }
        line = at + 1;
    }
    return starts;
}

const isText = (output, at, end, text) =>
    end - at >= text.length && [...text].every((character, index) => output[at + index] === character.charCodeAt(0));

const isError = (output, at, end) => isText(output, at, end, "error ");

const isLastOfBlock = (output, from, to) =>
    to === from || isError(output, from, to) || (to - from === 3 && isText(output, from, to, "end"));

// What the table can be filtered by, a bit each for every line.
function flagsOf(library, input, output, starts, tests) {
    const flags = new Uint8Array(starts.length);
    starts.forEach((start, index) => {
        const end = (starts[index + 1] ?? output.length) - 1;
        flags[index] = (isError(output, start, end) ? FLAGS.error : 0) | (start === end ? FLAGS.empty : 0);
    });
    for (const {words, flag, isHit, isExplained} of tests) {
        const answers = library.run(words, input).output;
        startsOf(answers, isExplained).forEach((start, index, all) => {
            if (isHit(answers, start, (all[index + 1] ?? answers.length) - 1)) {
                flags[index] |= flag;
            }
        });
    }
    return flags;
}

const decoded = (output, from, to) => String.fromCharCode(...output.subarray(from, Math.min(to, from + 40)));

// 'granted 0x001f01ff' of a token that is asked for all that it gets: whether a right to change is in it.
const changeTest = (words, mask) => ({
    words,
    flag: FLAGS.change,
    isHit: (output, from, to) =>
        isText(output, from, to, "granted ") && (parseInt(decoded(output, from + 8, to), 16) & mask) !== 0,
});

// The line of an explanation that says that there is no list, or a null one.
function hasNoDacl(output, from, to) {
    for (let line = from; line < to; line = output.indexOf(LF, line) + 1) {
        if (isText(output, line, to, "dacl absent") || isText(output, line, to, "dacl null")) {
            return true;
        }
        if (isText(output, line, to, "dacl ")) {
            return false;
        }
    }
    return false;
}

const noDaclTest = (words) => ({words, flag: FLAGS.noDacl, isExplained: true, isHit: hasNoDacl});

const testsOf = ({change,
    changeMask,
    explain}) => [change && changeTest(change, changeMask), explain && noDaclTest(explain)].filter(Boolean);

// Answers a file: 'tell' gets {kind: 'piece', output, starts, flags, lines, bytes}, and at the end {kind: 'done'} or
// {kind: 'usage', message}. 'isStopped' is asked between two pieces.
export async function answerFile(library, {file, words, filters}, tell, isStopped) {
    const lines = new Lines();
    const tests = testsOf(filters);
    const isExplained = words[0] === "explain";
    const counted = {lines: 0, errors: 0, kept: 0};
    const usage = library.run(words, new Uint8Array(0));
    if (usage.status > 1) {
        return tell({kind: "usage", message: usage.message.trim(), status: usage.status});
    }
    let begun = 0; // where in the file the first line of the next piece begins
    const answer = (input, end, bytes) => {
        const {status, output, message} = library.run(words, input);
        if (status > 1) {
            throw new RangeError(message.trim());
        }
        const starts = startsOf(output, isExplained);
        const flags = flagsOf(library, input, output, starts, tests);
        counted.lines += starts.length;
        counted.errors += flags.filter((flag) => flag & FLAGS.error).length;
        const room = Math.max(0, MOST_LINES - counted.kept);
        counted.kept += Math.min(room, starts.length);
        const shown = Uint32Array.from(starts.slice(0, room));
        tell({
            kind: "piece",
            output,
            starts: shown,
            flags: flags.slice(0, room),
            bytes,
            lines: counted.lines,
            errors: counted.errors,
            places: placesOf(input, begun, end).slice(0, shown.length),
            shownEnd: starts[shown.length] ?? output.length
        });
        begun = end;
    };
    for (let at = 0; at < file.size; at += PIECE) {
        if (isStopped()) {
            return tell({kind: "done", isStopped: true, ...counted});
        }
        const bytes = new Uint8Array(await file.slice(at, at + PIECE).arrayBuffer());
        const end = bytes.lastIndexOf(LF) + 1;
        const whole = lines.push(bytes, end);
        if (whole) {
            answer(whole, at + end, at + bytes.length);
        }
        await new Promise((resolve) => setTimeout(resolve)); // so that a message to stop is heard
    }
    const rest = lines.rest();
    if (rest.length) {
        answer(rest, file.size, file.size);
    }
    return tell({kind: "done", isStopped: false, ...counted});
}

// Where in the file each line begins. Only the first line of a piece may have been cut, so all others are counted
// from the end.
function placesOf(input, begun, end) {
    const places = [begun];
    for (let at = input.indexOf(LF); at >= 0 && at + 1 < input.length; at = input.indexOf(LF, at + 1)) {
        places.push(end - input.length + at + 1);
    }
    return Float64Array.from(places);
}

export {FLAGS};
