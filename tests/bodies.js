// Prints the bodies of crates/wm_run_tests/src/runs/bodies.rt, which V8 runs without a trap:
//   node tests/bodies.js > crates/wm_run_tests/src/runs/bodies.rt && (cd crates/wm_run_tests && rt fmt)
const leb = (n) => {
  const out = [];
  do {
    const b = n & 127;
    n >>>= 7;
    out.push(n ? b | 128 : b);
  } while (n);
  return out;
};
const signed = (value, bits) => {
  value = BigInt.asIntN(bits, BigInt(value));
  const out = [];
  for (;;) {
    const b = Number(value & 127n);
    value >>= 7n;
    if ((value === 0n && !(b & 64)) || (value === -1n && b & 64)) return [...out, b];
    out.push(b | 128);
  }
};
const section = (id, content) => [id, ...leb(content.length), ...content];
const text = (s) => [s.length, ...Buffer.from(s)];

// The module of crates/wm_run_tests/src/runs/modules.rt without its start function.
function module_of(body) {
  const code = [1, 1, 0x7f, ...body, 0x0b];
  return new Uint8Array([0, 0x61, 0x73, 0x6d, 1, 0, 0, 0,
    ...section(1, [3, 0x60, 0, 0, 0x60, 1, 0x7f, 0, 0x60, 0, 1, 0x7e]),
    ...section(2, [3, ...text("ic0"), ...text("accept_message"), 0, 0,
      ...text("ic0"), ...text("msg_cycles_available128"), 0, 1, ...text("ic0"), ...text("time"), 0, 2]),
    ...section(3, [2, 0, 1]), ...section(4, [1, 0x70, 0, 4]), ...section(5, [1, 1, 1, 3]),
    ...section(6, [1, 0x7e, 1, 0x42, 7, 0x0b]), ...section(7, [1, ...text("canister_update run"), 0, 3]),
    ...section(9, [1, 0, 0x41, 1, 0x0b, 3, 1, 4, 3]),
    ...section(10, [2, ...leb(code.length), ...code, 2, 0, 0x0b]),
    ...section(11, [1, 0, 0x41, 0, 0x0b, 8, 0x80, 0xff, 0x7f, 1, 0xfe, 0, 0, 0x80])]);
}
const host = { ic0: { accept_message() {}, msg_cycles_available128() {}, time: () => 7n } };

const c32 = (value) => [0x41, ...signed(value, 32)];
const c64 = (value) => [0x42, ...signed(value, 64)];
const unless_equal = [0x04, 0x40, 0, 0x0b]; // if unreachable end
const is32 = (value) => [...c32(value), 0x47, ...unless_equal];
const is64 = (value) => [...c64(value), 0x52, ...unless_equal];
const load = (opcode, at, offset) => [...c32(at), opcode, 0, ...leb(offset)];
const range = (x, y, size, opcode) => [...c32(x), ...c32(y), ...c32(size), 0xfc, opcode, 0, ...(opcode === 0x0a ? [0] : [])];
const table_of = (index) => [0x02, 0x7f, 0x02, 0x7f, 0x02, 0x7f, ...c32(10), ...c32(index), 0x0e, 2, 0, 1, 2, 0x0b,
  ...c32(1), 0x6a, 0x0b, ...c32(1), 0x6a, 0x0b];

const bodies = {
  "i32.load": [...load(0x28, 0, 0), ...is32(0x017fff80)],
  "i64.load": [...load(0x29, 0, 0), ...is64(0x800000fe017fff80n)],
  "i32.load8_s": [...load(0x2c, 0, 0), ...is32(-128)],
  "i32.load8_u": [...load(0x2d, 0, 0), ...is32(128)],
  "i32.load16_s": [...load(0x2e, 1, 5), ...is32(-32768)],
  "i32.load16_u": [...load(0x2f, 0, 0), ...is32(0xff80)],
  "i64.load8_s": [...load(0x30, 4, 3), ...is64(-128)],
  "i64.load8_u": [...load(0x31, 3, 4), ...is64(128)],
  "i64.load16_s": [...load(0x32, 1, 5), ...is64(-32768)],
  "i64.load16_u": [...load(0x33, 1, 5), ...is64(32768)],
  "i64.load32_s": [...load(0x34, 4, 0), ...is64(0xffffffff800000fen)],
  "i64.load32_u": [...load(0x35, 0, 4), ...is64(0x800000fen)],
  "i32.store": [...c32(8), ...c32(0x11223344), 0x36, 0, 0, ...load(0x29, 8, 0), ...is64(0x11223344)],
  "i64.store": [...c32(8), ...c64(0x1122334455667788n), 0x37, 0, 0, ...load(0x28, 8, 4), ...is32(0x11223344)],
  "i32.store8": [...c32(8), ...c32(-1), 0x3a, 0, 1, ...load(0x28, 8, 0), ...is32(0xff00)],
  "i32.store16": [...c32(8), ...c32(-1), 0x3b, 0, 1, ...load(0x28, 8, 0), ...is32(0xffff00)],
  "i64.store8": [...c32(8), ...c64(-1), 0x3c, 0, 2, ...load(0x29, 8, 0), ...is64(0xff0000)],
  "i64.store16": [...c32(8), ...c64(-1), 0x3d, 0, 2, ...load(0x29, 8, 0), ...is64(0xffff0000n)],
  "i64.store32": [...c32(8), ...c64(-1), 0x3e, 0, 2, ...load(0x29, 8, 0), ...is64(0xffffffff0000n)],
  "the last bytes": [...c32(65532), ...c32(5), 0x36, 0, 0, ...load(0x29, 65528, 0), ...is64(0x500000000n)],
  "i32.extend8_s": [...c32(0x12345680), 0xc0, ...is32(-128), ...c32(0x1234567f), 0xc0, ...is32(127)],
  "i32.extend16_s": [...c32(0x12348000), 0xc1, ...is32(-32768), ...c32(0x12347fff), 0xc1, ...is32(32767)],
  "i64.extend8_s": [...c64(0x1234567812345680n), 0xc2, ...is64(-128), ...c64(0x7f), 0xc2, ...is64(127)],
  "i64.extend16_s": [...c64(0x1234567812348000n), 0xc3, ...is64(-32768), ...c64(0x7fff), 0xc3, ...is64(32767)],
  "i64.extend32_s": [...c64(0x1234567880000000n), 0xc4, ...is64(-2147483648), ...c64(0x7fffffff), 0xc4, ...is64(0x7fffffff)],
  "memory.copy": [...range(1, 0, 7, 0x0a), ...load(0x29, 0, 0), ...is64(0x0000fe017fff8080n),
    ...range(0, 1, 7, 0x0a), ...load(0x29, 0, 0), ...is64(0x000000fe017fff80n), ...range(65536, 65536, 0, 0x0a)],
  "memory.fill": [...range(1, 0x1ff, 3, 0x0b), ...load(0x29, 0, 0), ...is64(0x800000feffffff80n),
    ...range(65528, 5, 8, 0x0b), ...load(0x29, 65528, 0), ...is64(0x0505050505050505n), ...range(65536, 5, 0, 0x0b)],
  "memory.size, memory.grow": [0x3f, 0, ...is32(1), ...c32(1), 0x40, 0, ...is32(1), ...c32(2), 0x40, 0, ...is32(-1),
    0x3f, 0, ...is32(2), ...load(0x28, 131068, 0), ...is32(0)],
  "locals": [0x20, 0, ...is32(0), ...c32(5), 0x21, 0, ...c32(6), 0x22, 0, ...is32(6), 0x20, 0, ...is32(6)],
  "globals": [0x23, 0, ...is64(7), ...c64(-3), 0x24, 0, 0x23, 0, ...is64(-3)],
  "nop, drop, select": [0x01, ...c32(1), ...c32(2), ...c32(3), 0x1b, ...is32(1), ...c32(1), ...c32(2), ...c32(0), 0x1b,
    ...is32(2), ...c32(9), 0x1a],
  "block, br, br_if": [0x02, 0x7f, ...c32(8), ...c32(4), 0x0c, 0, 0x0b, ...is32(4),
    0x02, 0x7f, ...c32(3), ...c32(1), 0x0d, 0, 0x1a, ...c32(2), 0x0b, ...is32(3),
    0x02, 0x7f, ...c32(3), ...c32(0), 0x0d, 0, 0x1a, ...c32(2), 0x0b, ...is32(2)],
  "a branch out of two blocks": [...c32(7), 0x02, 0x40, ...c32(1), ...c32(2), 0x02, 0x40, ...c32(3), 0x0c, 1, 0x0b, 0x1a,
    0x1a, 0x0b, ...is32(7)],
  "loop": [...c32(5), 0x21, 0, 0x03, 0x40, 0x20, 0, ...c32(1), 0x6b, 0x22, 0, 0x0d, 0, 0x0b, 0x20, 0, ...is32(0),
    0x03, 0x7f, ...c32(4), 0x0b, ...is32(4)],
  "if": [...c32(0), 0x04, 0x7f, ...c32(1), 0x05, ...c32(2), 0x0b, ...is32(2),
    ...c32(4), 0x04, 0x7f, ...c32(1), 0x05, ...c32(2), 0x0b, ...is32(1), ...c32(0), 0x04, 0x40, 0x00, 0x0b],
  "br_table": [[0, 12], [1, 11], [2, 10], [3, 10], [-1, 10]].flatMap(([index, value]) => [...table_of(index), ...is32(value)]),
  "return": [...c32(1), ...c32(2), 0x02, 0x40, ...c32(3), 0x0f, 0x0b, 0x00],
  "calls": [0x10, 0, ...c32(3), 0x10, 1, 0x10, 2, ...is64(7), ...c32(4), 0x10, 4, ...c32(4), ...c32(2), 0x11, 1, 0],
};

const rows = Object.entries(bodies).map(([name, body]) => {
  const instance = new WebAssembly.Instance(new WebAssembly.Module(module_of(body)), host);
  instance.exports["canister_update run"]();
  return `    ("${name}", b"${body.map((b) => "\\x" + b.toString(16).padStart(2, "0")).join("")}"),`;
});
console.log(`// Memory, locals, globals, blocks, branches and calls: bodies that do not trap in V8
// (tests/bodies.js).

/// A name, and a body.
type Named = (&'static str, &'static [u8]);

static OTHERS: [Named; ${rows.length}] = [
${rows.join("\n")}
];

pub fn others() -> &'static [Named] {
    &OTHERS
}`);
