// Texts for which a careless reader takes minutes: repeats, nestings and near-misses of what the page reads.

export const LENGTH = 400_000; // characters
export const MILLISECONDS = 500;
const TRIES = 12;   // of what is measured, on a machine that does other things too
const AT_EASE = 40; // milliseconds of a fixed act on a machine that does nothing else

export const PIECES = [
    " ", "\t", "\n", "\r", "\r\n", "\u2028", "\u00a0", "\u3000", "\0", "\ufeff", "\u202e", "\ud800", "\u{1f600}", "x",
    "A", "1", "0", "=", ",", ";", ":", "|", "!", "-", ".", "/", "\\", "\\\n", "\\ ", "\"", "\"\"", "'", "`", "<", ">",
    "</", "{", "}", "[", "]", "(", ")", "()", "((", "))", "(A", ";;", "\u201c", "\u201d", "\u201e", "\u2018", "\u00ab",
    "O:", "G:", "D:", "S:", "D: ", "D:(", "S:(", "O:1", "O:BA", "D:P", "D:(A;;FA;;;WD)", "(A;;FA;;;WD)",
    "(A;;FA;;;Everyone)", "(XA;;FR;;;WD;(a))", "D:NO_ACCESS_CONTROL", "\"D:", "'O:BA", "S-1-", "S-1-5-21-", "S-1-1-0 ",
    "S-1-1-0 a", "S-1-1-0=", "hex:", "hex(", "hex(3):", "\"a\"=hex:", "@=hex:", "\"=hex:01,", "hex:01,\\",
    "REG_BINARY ", " REG_BINARY 01", "01 ", "01,", "01:", "0x", "0x1", "1,", "1, ", "1 255", "255,", "AQ", "AQAEgBQA",
    "==", "dn:", "dn: ", "dn:: ", "a:: ", "a-b;c::", "nTSecurityDescriptor:: ", "nTSecurityDescriptor:: AQ==\n", "Path",
    "Path :", "Path : C:\\", "\"Path\": \"", "\"Path\" :", ":(F)", ":(I)(OI)(CI)(RX)", "BUILTIN\\Users",
    "BUILTIN\\Users:(F)", "Everyone:(", ":(A,", "(DENY)", "Successfully processed 1 ", "\"S-1-5-32-544\",",
    "\"deny only\"", "%", "&", "d=", "&d=x", "%zz", "constructor", "__proto__", "toString"
];

// Whole texts of a length, from pieces that a number chooses. Each shape is a way in which a search can begin again and
// again.
const SHAPES = [
    (one) => one, (one, other) => other + one, (one, other) => one + other, (one, other, third) => other + one + third,
    (one, other, third) => `${other}\n${one}\n${third}`
];

const repeated = (piece, length) => piece.repeat(Math.max(1, Math.ceil(length / piece.length))).slice(0, length);

// A generator of numbers that is the same each time.
export function randomOf(seed) {
    let state = seed;
    return (below) => {
        state = (Math.imul(state, 1_103_515_245) + 12_345) >>> 0;
        return (state >>> 8) % below;
    };
}

// Each piece alone, with the ends of a line and with others around it; two and three pieces by turns; one run behind
// another; lines of pieces; nestings; and pieces in any order.
export function* hostileTexts(number, seed = 1, length = LENGTH) {
    const random = randomOf(seed);
    const any = () => PIECES[random(PIECES.length)];
    const alone = [
        (piece) => repeated(piece, length), (piece) => `${repeated(piece, length)}\u2028x`,
        (piece) => `${repeated(piece, length / 2)}O:BAD:(A;;FA;;;WD)${repeated(piece, length / 2)}`
    ];
    for (const piece of PIECES) {
        yield alone[random(alone.length)](piece);
    }
    for (let count = 0; count < number; count += 1) {
        const [one, other, third] = [any(), any(), any()];
        const few = random(20) + 1;
        const mixed = [
            () => SHAPES[random(SHAPES.length)](repeated(one, length), other, third),
            () => repeated(one + other, length), () => repeated(one + other + third, length),
            () => repeated(repeated(one, few * one.length) + other, length),
            () => repeated(one, length / 2) + repeated(other, length / 2) + third,
            () => third + repeated(one, length / 2) + other + repeated(one, length / 2),
            () => repeated(`${one}${other}\n`, length), () => `${third}\n${repeated(`${one}\n`, length)}`,
            () => `${third}${repeated("(", length / 2)}${one}${repeated(")", length / 2)}`,
            () => Array.from({length: length / 8}, any).join("").slice(0, length)
        ];
        yield mixed[random(mixed.length)]();
    }
}

// How many milliseconds of a processor an act takes: the least of some tries, if the first is too long.
export function measured(act, most = MILLISECONDS) {
    let least = Infinity;
    for (let attempt = 0; attempt < TRIES && least > most; attempt += 1) {
        const began = process.cpuUsage();
        act();
        const {user, system} = process.cpuUsage(began);
        least = Math.min(least, (user + system) / 1000);
    }
    return least;
}

// Makes and drops objects, as readers do.
const fixedAct = () => repeated("hex:", 400_000)
                           .split(":")
                           .map((part) => ({part, list: [part, {part}]}))
                           .filter(({list}) => list.length === 2);

// Whether a time is too long for this machine, as busy as it is: other programs take its caches too.
export const isTooLong = (time, most = MILLISECONDS) =>
    time > most && time > most * Math.max(1, measured(fixedAct, AT_EASE) / AT_EASE);

export const nameOf = (text) => `${JSON.stringify(text.slice(0, 40))} .. ${JSON.stringify(text.slice(-20))}`;
