// vectors.mjs MODULE ..
//
// Tests what each JavaScript module says in an engine without vectors, which Node is with --no-enable-sse4-1: load
// rejects, names the vectors, and has the engine's own error as its cause. The last line is 'N passed, M failed'.
let passed = 0, failed = 0;
for (const address of process.argv.slice(2)) {
    const {load, hasVectors} = await import(address);
    const error = await load().then(() => undefined, (reason) => reason);
    const isRight = !hasVectors() && /^sdtool: .*vectors \(SIMD\)/.test(error?.message) &&
        error.cause instanceof WebAssembly.CompileError;
    if (isRight) passed += 1;
    else {
        failed += 1;
        console.log(`FAIL ${address}: ${hasVectors()}, ${error}`);
    }
}
console.log(`${passed} passed, ${failed} failed`);
process.exitCode = failed === 0 ? 0 : 1;
