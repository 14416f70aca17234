// module.mjs FOLDER WORD ..
//
// Answers standard input by one call of `run` of the JavaScript module in FOLDER, as the program does with the words.
import {readFileSync, writeSync} from "node:fs";
import {pathToFileURL} from "node:url";

const [folder, ...words] = process.argv.slice(2);
const {load} = await import(pathToFileURL(`${folder}/sdtool.mjs`));
const {status, output, message} = (await load()).run(words, readFileSync(0));
for (let at = 0; at < output.length;) at += writeSync(1, output, at);
process.stderr.write(message);
process.exitCode = status;
