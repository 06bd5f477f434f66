// Runs the kernel of a module in V8, and prints the milliseconds of user time that this takes, compilation
// included.
const fs = require("fs");
const bytes = fs.readFileSync(process.argv[2]);
const start = process.cpuUsage();
const instance = new WebAssembly.Instance(new WebAssembly.Module(bytes), {});
instance.exports["canister_update run"]();
console.log(process.cpuUsage(start).user / 1e3);
