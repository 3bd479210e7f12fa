// Makes calls of cdc6600.mjs for tools/check module: `node module_calls.mjs CDC6600.MJS MODULE`. Each line of standard
// input is a call in JSON, and gets a line with its result. Bytes are in base64, and words of 60 bits are texts.
import { readFileSync } from "node:fs";
import { createInterface } from "node:readline";
import { pathToFileURL } from "node:url";

const [file, moduleFile] = process.argv.slice(2);
const calls = await import(pathToFileURL(file));
const { instance, module } = await WebAssembly.instantiate(readFileSync(moduleFile));

// Counts the blocks that aren't freed yet.
let blocks = 0;
const counted = {
  cdc6600_allocate(size) {
    const address = instance.exports.cdc6600_allocate(size);
    blocks += address === 0n ? 0 : 1;
    return address;
  },
  cdc6600_deallocate(address) {
    blocks -= 1;
    instance.exports.cdc6600_deallocate(address);
  },
};
const library = new calls.Library({ ...instance.exports, ...counted }, true);
const machines = [];
const asWords = (numbers) => numbers.map(String);
const OF_EVERY_CLASS = ["constructor", "length", "name", "prototype"];
const names = (it) => Object.getOwnPropertyNames(it).filter((name) => !OF_EVERY_CLASS.includes(name));
const members = (it, made) => [...names(it), ...names(it.prototype), ...Object.keys(made)];

/** How a call ends; `kind` is that of what it throws. */
function ended(work) {
  try {
    return { status: 0, ...work() };
  } catch (error) {
    const { name, status, printed, told, message } = error;
    return { kind: name, status, printed, told, message };
  }
}

const answers = {
  imports: () => ({ names: WebAssembly.Module.imports(module).map((it) => it.name) }),
  exports: () => ({ names: WebAssembly.Module.exports(module).map((it) => it.name) }),
  exported: () => ({ names: Object.keys(calls) }),
  members: () => ({
    Library: members(calls.Library, library),
    Machine: members(calls.Machine, {}),
    Cdc6600Error: members(calls.Cdc6600Error, new calls.Cdc6600Error({ status: 1 })),
  }),
  constants: () => ({ budgets: [calls.DEFAULT_BUDGET, calls.LARGEST_BUDGET] }),
  blocks: () => ({ count: blocks, size: instance.exports.memory.buffer.byteLength }),
  version: () => ({ printed: library.version }),
  library: (name, ...given) => library[name](...given),
  make: () => ({ number: machines.push(library.machine()) - 1 }),
  machine: (number, name, ...given) => machines[number][name](...given),
  drain: (number) => ({ count: machines[number].drain() }),
  advance: (number, ...given) => ({ count: machines[number].advance(...given) }),
  isDrained: (number) => ({ flag: machines[number].isDrained }),
  registers: (number) => {
    const it = machines[number].registers();
    return { ...it, x: asWords(it.x), held: String(it.held) };
  },
  words: (number, ...given) => ({ words: asWords(machines[number].words(...given)) }),
  // Tries a call of a machine; `forbidden` tries something that can't be tried.
  trying: (number, name, ...given) => library.trying(() => machines[number][name](...given)),
  forbidden: (number, what) => library.trying(() => ({
    make: () => library.machine(), free: () => machines[number].free(), trying: () => library.trying(() => 0),
  })[what]()),
};

/** An argument: bytes, a large number, or what it is. */
function argument(it) {
  if (typeof it !== "object") {
    return it;
  }
  return "bytes" in it ? new Uint8Array(Buffer.from(it.bytes, "base64")) : BigInt(it.big);
}

for await (const line of createInterface({ input: process.stdin })) {
  const [name, ...given] = JSON.parse(line);
  process.stdout.write(`${JSON.stringify(ended(() => answers[name](...given.map(argument))))}\n`);
}
