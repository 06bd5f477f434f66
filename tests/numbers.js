// Prints tests/numbers.rows: every operation on integers at ten pairs of operands of each width, with what V8 computes.
//   node tests/numbers.js > tests/numbers.rows
const { createHash } = require("crypto");

const pairs = {
  32: [[0, 0], [1, -1], [-1, 1], [0x80000000, -1], [0x7fffffff, 0x80000000], [0x80000000, 31],
    [0xabcd9876, 33], [7, -2], [-7, 2], [0x12345678, 32]],
  64: [["0", "0"], ["1", "-1"], ["-1", "1"], ["0x8000000000000000", "-1"],
    ["0x7fffffffffffffff", "0x8000000000000000"], ["0x8000000000000000", "63"],
    ["0xabcd987602468ace", "65"], ["7", "-2"], ["-7", "2"], ["0x123456789abcdef0", "64"]],
};
// each operation: opcode, number of operands, and bits of operands and result
const operations = { 32: [], 64: [] };
for (const [n, eqz, clz] of [[32, 0x45, 0x67], [64, 0x50, 0x79]]) {
  operations[n].push([eqz, 1, n, 32]);
  for (let i = 1; i <= 10; i++) operations[n].push([eqz + i, 2, n, 32]); // eq, ne, lt_s, lt_u, .. ge_u
  for (let i = 0; i <= 2; i++) operations[n].push([clz + i, 1, n, n]); // clz, ctz, popcnt
  for (let i = 3; i <= 17; i++) operations[n].push([clz + i, 2, n, n]); // add, sub, mul, div_s, .. rotr
}
operations[32].push([0xc0, 1, 32, 32], [0xc1, 1, 32, 32]); // extend8_s, extend16_s
operations[32].push([0xac, 1, 32, 64], [0xad, 1, 32, 64]); // i64.extend_i32_s, i64.extend_i32_u
operations[64].push([0xc2, 1, 64, 64], [0xc3, 1, 64, 64], [0xc4, 1, 64, 64]); // extend8_s, extend16_s, extend32_s
operations[64].push([0xa7, 1, 64, 32]); // i32.wrap_i64

const type = { 32: 0x7f, 64: 0x7e };
const number = { 32: (x) => Number(x) | 0, 64: (x) => BigInt.asIntN(64, BigInt(x)) };

function leb(n) {
  const low = n & 127;
  return n < 128 ? [low] : [low | 128, ...leb(n >>> 7)];
}
function signed(x) {
  const low = Number(BigInt.asUintN(7, x));
  const rest = x >> 7n;
  const ends = (rest === 0n && low < 64) || (rest === -1n && low >= 64);
  return ends ? [low] : [low | 128, ...signed(rest)];
}
const constant = (bits, x) => [bits === 32 ? 0x41 : 0x42, ...signed(BigInt(x))];
const text = (s) => [...leb(s.length), ...Buffer.from(s)];
const section = (id, bytes) => [id, ...leb(bytes.length), ...bytes];
const code = (body) => [...leb(body.length + 2), 0, ...body, 0x0b];
const module_of = (params, result, bodies, exported) => [0, 0x61, 0x73, 0x6d, 1, 0, 0, 0,
  ...section(1, [1, 0x60, params.length, ...params, result.length, ...result]),
  ...section(3, [...leb(bodies.length), ...bodies.map(() => 0)]),
  ...section(7, [...leb(bodies.length), ...bodies.flatMap((_, i) => [...text(exported[i]), 0, i])]),
  ...section(10, [...leb(bodies.length), ...bodies.flatMap(code)])];

// The result, or the text of the trap.
function computed([opcode, operands, from, to], pair) {
  const params = Array(operands).fill(type[from]);
  const body = [...params.flatMap((_, i) => [0x20, i]), opcode];
  const bytes = new Uint8Array(module_of(params, [type[to]], [body], ["f"]));
  const f = new WebAssembly.Instance(new WebAssembly.Module(bytes)).exports.f;
  try {
    return f(...pair.slice(0, operands).map(number[from]));
  } catch (e) {
    return /by zero/.test(e.message) ? "division by zero" : "integer overflow";
  }
}

// The operation on the operands.
const applied = ([opcode, operands, from], pair) =>
  [...pair.slice(0, operands).flatMap((x) => constant(from, number[from](x))), opcode];
// `unreachable` where the value on top is not this one: four instructions where it is.
const is = (bits, value) => [...constant(bits, value), bits === 32 ? 0x47 : 0x52, 0x04, 0x40, 0x00, 0x0b];

const hex = (bytes) => Buffer.from(bytes).toString("hex");
const created = hex([...Buffer.from("DIDL"), 2, 0x6e, 0x7d, 0x6c, 1, 0xd8, 0xa3, 0x8c, 0xa8, 0x0d, 0, 1, 1, 1,
  0x80, 0xa0, 0x94, 0xa5, 0x8d, 0x1d]);
const installed = (module) => "4449444c036d7b6b019baaebec087f6c04d6fca70200a79fc97e00e3a683c30401b3c4b1f20468010200" +
  hex([...leb(module.length), ...module]) + "00010a00000000000000000101";
const empty = createHash("sha256").digest("hex");
const canister = "rwlgt-iiaaa-aaaaa-aaaaa-cai";

// A row: a canister whose methods have these bodies is called, and each call ends so, and costs this many instructions.
function print(title, methods) {
  const module = module_of([], [], methods.map((m) => m.body), methods.map((_, i) => `canister_update m${i}`));
  const cost = methods.reduce((sum, m) => sum + m.cost, 0);
  console.log(`# ${title}`);
  console.log("$ --price 1");
  console.log(`< call 2vxsx-fae aaaaa-aa provisional_create_canister_with_cycles ${created}\n> accepted 0`);
  console.log(`< call 2vxsx-fae aaaaa-aa install_code ${installed(module)}\n> accepted 1\n< drain\n> ran 1 left 0`);
  methods.forEach((_, i) => console.log(`< call 2vxsx-fae ${canister} m${i} -\n> accepted ${i + 2}`));
  console.log(`< drain\n> ran ${methods.length} left 0`);
  console.log("> answer 0 replied 4449444c016c01b3c4b1f204680100010a00000000000000000101\n> answer 1 replied 4449444c0000");
  methods.forEach((m, i) => console.log(`> answer ${i + 2} rejected 5 "${m.ends}"`));
  const hash = createHash("sha256").update(new Uint8Array(module)).digest("hex");
  const left = 1_000_000_000_000 - cost;
  console.log(`> {"burned":"${cost}","canisters":[{"balance":"${left}","certified":"","contexts":0,"controllers":["2vxsx-fae"],` +
    `"globals":[],"id":"${canister}","memory":0,"memory_hash":"${empty}","module":"${hash}","stable":0,` +
    `"stable_hash":"${empty}","status":"running"}],"created":"1000000000000","held":"${left}","messages":0,"time":"0"}`);
  console.log("...\n= 0\n");
}

console.log(`# Every operation on integers, with what V8 computes: tests/numbers.js prints these rows. The first method of a canister
# does each operation on the two numbers that gives one, and reaches \`unreachable\` where a result is another; it does not
# respond. Each other method does a division that traps. Each instruction costs a cycle.
`);
for (const n of [32, 64]) {
  for (const pair of pairs[n]) {
    const all = operations[n].map((operation) => [operation, computed(operation, pair)]);
    const right = all.filter(([, value]) => typeof value !== "string");
    const words = right.flatMap(([operation, value]) => [...applied(operation, pair), ...is(operation[3], value)]);
    const cost = right.reduce((sum, [[, operands]]) => sum + operands + 4, 0);
    const traps = all.filter(([, value]) => typeof value === "string").map(([operation, trap]) =>
      ({ body: [...applied(operation, pair), 0x1a], ends: `canister trapped: ${trap}`, cost: 3 }));
    const numbers = pair.map((x) => number[n](x)).join(" and ");
    print(`${n} bits: ${numbers}`, [{ body: words, ends: "canister did not respond", cost }, ...traps]);
  }
}
print("a result that is another is seen", [{ body: [...constant(32, 1), ...is(32, 2)], ends: "canister trapped: unreachable", cost: 5 }]);
