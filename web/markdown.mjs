// A view as Markdown: the verdict, who has which rights, the ACEs, and what stands out. Nothing of a name becomes
// markup, a link or the end of a cell.
import {cellOf, has} from "./access.mjs";
import {alikeRows, stateWord, warningText} from "./look_view.mjs";
import {faultInWords, guidInWords, labelInWords, nameOf, rightsInWords, rightsOf, visible, whereOf} from "./naming.mjs";
import {itemsOf} from "./packing.mjs";
import {wordOfKind} from "./parts_view.mjs";
import {reasonsOf, sentenceOf} from "./sentences.mjs";
import {valueIn} from "./tables.mjs";
import {commaed, say, WORDS} from "./words.mjs";

const MOST = 1000; // rows of a table
const MARKS = /[\\`*_[\]{}<>()#+!|~&@$]|:(?=\/\/)|(?<=www)\./gi;
const STATES = ["granted", "rule", "denied", "none"];

const escaped = (text) => visible(text).replace(MARKS, "\\$&");

// Text of SDDL, whose characters mean nothing else between backticks.
const code = (text) => (/[`|]/.test(text) ? escaped(text) : `\`${visible(text)}\``);

const rowOf = (cells) => `| ${cells.join(" | ")} |`;

function tableOf(head, rows) {
    const left = rows.length > MOST ? ["", say(WORDS.summary.left, {count: rows.length - MOST})] : [];
    return ["", rowOf(head.map(escaped)), rowOf(head.map(() => "-")), ...rows.slice(0, MOST).map(rowOf), ...left];
}

function gridOf(result, {kind, names, isCommon}) {
    const {grid} = result;
    const {signs, heading, trustee, owner, tokenCommon, tokenAlone} = WORDS.grid;
    const rights = rightsOf(kind).filter(({bit}) => has(grid.rights, bit));
    const nameIn = ({sid, isOwner}) => escaped(nameOf(sid, names)) + (isOwner ? ` (${escaped(owner)})` : "");
    const rows = alikeRows(result, kind).map(({
        rows: some
    }) => [commaed(some.map(nameIn)), ...rights.map(({bit}) => valueIn(signs, cellOf(some[0], bit)))]);
    const legend = STATES.map((state) => `${valueIn(signs, state)} ${stateWord(state, grid)}`);
    return [
        "", `## ${heading}`, "", `${escaped(commaed(legend))}. ${escaped(isCommon ? tokenCommon : tokenAlone)}`,
        ...tableOf([trustee, ...rights.map(({short}) => short)], rows)
    ];
}

function aceRow(ace, kind, names) {
    const rights = ace.kind === "ML" ? labelInWords(ace.mask) : rightsInWords(kind, ace.meaning);
    const object = ace.object ? [say(WORDS.object, {name: guidInWords(ace.object, ace.meaning)})] : [];
    const {inherited, own} = WORDS.origin;
    const words = [...rights, ...object, whereOf(kind, ace), ace.flags.includes("ID") ? inherited : own];
    return [ace.number, wordOfKind(ace), nameOf(ace.sid, names), commaed(words)].map(escaped).concat(code(ace.text));
}

function acesOf({model}, {kind, names}) {
    const {columns} = WORDS.summary;
    const {number, sign, text} = WORDS.text.columns;
    return ["dacl", "sacl"].flatMap((list) => {
        const aces = itemsOf(model[list].aces);
        const head = [number, sign, columns.who, columns.can, text];
        return aces.length ?
            [
                "", `## ${escaped(valueIn(WORDS.parts, list))}`,
                ...tableOf(head, aces.map((ace) => aceRow(ace, kind, names)))
            ] :
            [];
    });
}

function findingsOf({warnings}, {kind, names}) {
    const all = itemsOf(warnings);
    const items = all.slice(0, MOST).map((warning) => `- **${valueIn(WORDS.warningLevels, warning.level)}** ` +
            escaped(warningText(warning, kind, names)));
    const left = all.length > MOST ? [say(WORDS.summary.left, {count: all.length - MOST})] : [];
    return [
        "", `## ${escaped(WORDS.warningsHeading)}`, "", ...(items.length ? items : [escaped(WORDS.noWarnings)]), ...left
    ];
}

// What the page shows of an answer. Of one that is refused, or whose kind is open, only what is known.
export function markdownOf(result, context) {
    const {judged, entry, fault, written = ""} = result;
    const {kind, names} = context;
    const word = escaped(valueIn(WORDS.verdict.words, judged.verdict));
    const texts = itemsOf(written).slice(0, MOST).map(({text}) => `- ${code(text)}`);
    const about = [[WORDS.print.name, entry?.name], [WORDS.kindLabel, result.kind && valueIn(WORDS.kinds, kind)]];
    return [
        `**${word}** ${escaped(sentenceOf(judged, names, result))}`, "",
        escaped(reasonsOf(judged, names, result).join(" ")),
        ...about.filter(([, value]) => value).flatMap(([title, value]) => ["", `${title}: ${escaped(value)}`]),
        ...(fault ? ["", escaped(faultInWords(fault))] : []), ...(texts.length ? ["", ...texts] : []),
        ...(result.model ? [...gridOf(result, context), ...acesOf(result, context), ...findingsOf(result, context)] :
                           [])
    ].join("\n") +
        "\n";
}
