// Tries heap.c and memory.c for tools/check module: `node module_heap.mjs MODULE`. The module has these two alone, and
// its memory has a limit. Prints a line for each fault.
import { readFileSync } from "node:fs";

const STEPS = 20_000;
const SIZES = [0, 1, 15, 16, 17, 31, 32, 33, 64, 65, 200, 511, 512, 513, 1000, 4096, 4097, 9000];
const HUGE = [2n ** 32n, 2n ** 32n + 1n, 2n ** 40n, 2n ** 63n - 1n, 2n ** 63n, 2n ** 64n - 1n];
const faults = new Set();
const { exports } = (await WebAssembly.instantiate(readFileSync(process.argv[2]))).instance;
const { rattle_alloc, rattle_realloc, rattle_dealloc, memcpy, memmove, memset } = exports;
const bytes = (address, length) => new Uint8Array(exports.memory.buffer, address, length);
const expect = (holds, what) => holds || faults.add(what);

// The struct that the first two return lies at the address of their first argument. Its block is taken first.
const answer = exports.cdc6600_allocate(16n);

/** What a call answers: an address, or none. */
function tried(call, ...given) {
  bytes(Number(answer), 16).fill(0xff);
  call(answer, ...given);
  const view = new DataView(exports.memory.buffer, Number(answer), 16);
  const [flag, address] = [view.getBigUint64(0, true), view.getBigUint64(8, true)];
  expect(flag <= 1n, "the flag is neither 0 nor 1");
  expect(address !== 0n, "the pointer is null");
  return flag ? Number(address) : null;
}

// Drawn numbers, by the constants of Park and Miller.
let seed = 6600;
const draw = (limit) => {
  seed = (seed * 48271) % 2147483647;
  return seed % limit;
};
const drawn = (list) => list[draw(list.length)];

/** The blocks in use, each with its address, its size and the byte that fills it. */
const blocks = [];

function isWhole({ address, size, fill }, length = size) {
  return bytes(address, length).every((it) => it === fill);
}

/** Fills a block with another byte. */
function filled(address, size) {
  const fill = draw(256);
  bytes(address, size).fill(fill);
  return { address, size, fill };
}

/** That no two blocks overlap, and each is aligned and within the memory. */
function expectApart() {
  const sorted = [{ address: Number(answer), size: 16 }, ...blocks].sort((a, b) => a.address - b.address);
  sorted.forEach(({ address, size }, at) => {
    expect(address % 16 === 0, "a block isn't aligned");
    const next = sorted[at + 1]?.address ?? exports.memory.buffer.byteLength;
    expect(address + size <= next && (size || address < next), "two blocks overlap, or one is outside the memory");
  });
}

function allocate() {
  const size = drawn(SIZES);
  const address = tried(rattle_alloc, BigInt(size), BigInt(drawn([1, 2, 4, 8, 16])));
  if (address !== null) {
    blocks.push(filled(address, size));
  }
  return address;
}

function reallocate() {
  const at = draw(blocks.length);
  const [block, size] = [blocks[at], drawn(SIZES)];
  const kept = Math.min(block.size, size);
  const address = tried(rattle_realloc, BigInt(block.address), BigInt(kept), BigInt(size), 8n);
  const now = { ...block, address: address ?? block.address };
  expect(isWhole(now, address === null ? block.size : kept), "a block that was resized has other bytes");
  blocks[at] = address === null ? block : filled(address, size);
}

function free() {
  const [block] = blocks.splice(draw(blocks.length), 1);
  expect(isWhole(block), "a block has other bytes than were written");
  rattle_dealloc(BigInt(block.address));
}

function tryBlocks() {
  for (let step = 0; step < STEPS; step++) {
    const isShort = blocks.length < 20 || (blocks.length < 200 && draw(2) === 0);
    [isShort ? allocate : free, reallocate][draw(3) === 0 && blocks.length ? 1 : 0]();
    if (step % 500 === 0) {
      expectApart();
    }
  }
  HUGE.forEach((size) => {
    expect(tried(rattle_alloc, size, 8n) === null, `${size} bytes are allocated`);
    expect(tried(rattle_realloc, BigInt(blocks[0].address), 0n, size, 8n) === null, `a block gets ${size} bytes`);
  });
  blocks.forEach((block) => expect(isWhole(block), "a block has other bytes than were written"));
}

/** Allocates until the memory is full; then all that is freed is there again. */
function fill() {
  const full = () => {
    let count = 0;
    for (let address = tried(rattle_alloc, 9000n, 8n); address !== null; address = tried(rattle_alloc, 9000n, 8n)) {
      blocks.push(filled(address, 9000));
      count += 1;
    }
    return count;
  };
  const [first, last] = [full(), blocks.at(-1)];
  expect(first > 10, "the memory doesn't grow");
  expect(tried(rattle_realloc, BigInt(last.address), 9000n, 40000n, 8n) === null, "a full memory has a larger block");
  expect(isWhole(last), "a block that couldn't be resized has other bytes");
  expectApart();
  blocks.splice(-first).forEach(({ address }) => rattle_dealloc(BigInt(address)));
  expect(full() === first, "freed blocks are lost");
  expectApart();
  while (blocks.length) {
    free();
  }
}

/** Copies and fills of all short lengths and some long ones, at drawn places that may overlap. */
function tryCopies() {
  const size = 2048;
  const room = tried(rattle_alloc, BigInt(size), 16n);
  const lengths = [...Array(80).keys(), 510, 511, 512, 513, 700];
  for (let round = 0; round < 6000; round++) {
    const whole = bytes(room, size);
    whole.forEach((_, at) => { whole[at] = round + at * 7; });
    const [length, to] = [drawn(lengths), draw(1000)];
    const from = drawn([draw(1000), Math.max(to - draw(20), 0), to + draw(20)]);
    const [wanted, value] = [whole.slice(), draw(1000)];
    const isApart = to + length <= from || from + length <= to;
    const kind = draw(3);
    const call = [memmove, isApart ? memcpy : memmove, memset][kind];
    const came = call(BigInt(room + to), kind === 2 ? value : BigInt(room + from), BigInt(length));
    wanted[kind === 2 ? "fill" : "copyWithin"](...(kind === 2 ? [value, to, to + length] : [to, from, from + length]));
    expect(came === BigInt(room + to), "a copy or a fill returns another address");
    expect(Buffer.compare(wanted, bytes(room, size)) === 0, `a copy or a fill of ${length} bytes is wrong`);
  }
}

tryCopies();
tryBlocks();
fill();
process.stdout.write([...faults].map((it) => `the heap: ${it}\n`).join(""));
