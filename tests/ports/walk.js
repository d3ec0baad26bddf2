// node walk.js WALK.wasm CALLS SEED: makes the walk as WebAssembly, and prints its hash.
const fs = require("fs");
const [file, calls, seed] = process.argv.slice(2);
const { walk_begin, walk_to } = new WebAssembly.Instance(new WebAssembly.Module(fs.readFileSync(file))).exports;
walk_begin(BigInt(seed));
console.log(BigInt.asUintN(64, walk_to(BigInt(calls))).toString(16).padStart(16, "0"));
