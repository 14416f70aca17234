// wasi.mjs FILE WORD ..
//
// Runs a WASI program with the words, the standard streams of this process, and nothing else of the machine.
import {readFileSync} from "node:fs";
import {WASI} from "node:wasi";

const [file, ...words] = process.argv.slice(2);
const wasi = new WASI({version: "preview1", args: ["sdtool", ...words], returnOnExit: true});
const {instance} = await WebAssembly.instantiate(readFileSync(file), wasi.getImportObject());
process.exitCode = wasi.start(instance);
