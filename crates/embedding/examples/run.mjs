// Runs a deck one instruction at a time and prints the dump, as `cdc6600 run --sequential` does:
//
//     node run.mjs MODULE DECK
//
// MODULE is cdc6600-32.wasm, or cdc6600.wasm if this Node accepts 64-bit addresses.
import { readFileSync } from "node:fs";
import { Cdc6600Error, Library } from "../javascript/cdc6600.mjs";

// The program's exit statuses for a wrong command line, and for a read that fails.
const USAGE = 2;
const DEVICE = 7;

async function run(words) {
  if (words.length !== 2) {
    process.stderr.write("usage: node run.mjs MODULE DECK\n");
    return USAGE;
  }
  const [module, deck] = words.map((file) => readFileSync(file));
  const library = await Library.of(module);
  const { printed, status } = library.run(deck);
  process.stdout.write(printed);
  return status;
}

try {
  process.exitCode = await run(process.argv.slice(2));
} catch (error) {
  const isRefused = error instanceof Cdc6600Error;
  process.stderr.write(isRefused ? error.told : `run.mjs: ${error.message}\n`);
  process.exitCode = isRefused ? error.status : DEVICE;
}
