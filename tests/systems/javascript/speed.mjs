// speed.mjs FOLDER ROUNDS
//
// Prints the processor time of a call of the JavaScript module in FOLDER, in microseconds: of toSddl, fromSddl, and
// check.
import {pathToFileURL} from "node:url";

const [folder, rounds] = process.argv.slice(2);
const {load} = await import(pathToFileURL(`${folder}/sdtool.mjs`));
const sdtool = await load();
const SDDL = "O:BAG:SYD:PAI(A;OICI;FA;;;SY)(A;OICI;FA;;;BA)(A;OICI;0x1200a9;;;BU)(A;;FR;;;S-1-5-21-1-2-3-1105)";
const descriptor = sdtool.fromSddl(SDDL);
const users = Uint8Array.from([1, 2, 0, 0, 0, 0, 0, 5, 32, 0, 0, 0, 33, 2, 0, 0]);
const calls = [
    () => sdtool.toSddl(descriptor), () => sdtool.fromSddl(SDDL),
    () => sdtool.check(descriptor, [users], {wanted: 0x120089})
];

function timeOf(call) {
    const start = process.cpuUsage();
    for (let round = 0; round < rounds; round += 1) call();
    const {user, system} = process.cpuUsage(start);
    return (user + system) / rounds;
}

for (const call of calls) timeOf(call);
console.log(calls.map((call) => Math.min(timeOf(call), timeOf(call), timeOf(call)).toFixed(3)).join(" "));
