// node viewer/node/trials.mjs ROOM PROGRAM ..: the trials of viewer/programs, which builds what is tried here. ROOM is a folder
// for files that go away.
import { existsSync, readFileSync } from 'node:fs';
import { run } from './program.mjs';
import { renderings } from './renderings.mjs';
import { helpers } from './helpers.mjs';
import { modules } from './modules.mjs';
import { measuring } from './measuring.mjs';
import { reaching } from './reaching.mjs';
import { regions } from './regions.mjs';
import { reporting } from './reporting.mjs';

const [room, ...programs] = process.argv.slice(2);
let tried = 0, good = 0;

/** Counts a trial: `saw` gives what was seen, and throws where that is not as expected. */
function trial(what, saw) {
  tried += 1;
  let word = 'as expected     ', text;
  try {
    text = saw();
    good += 1;
  } catch (fault) {
    word = 'NOT AS EXPECTED ';
    text = fault.message;
  }
  console.log(`${word} ${what.padEnd(82)} ${text}`);
}

/** A program's output has to be the stored one. */
function printed(program) {
  const stdin = `crates/${program}/stdin`, stored = readFileSync(`crates/${program}/stdout`);
  const wasm = readFileSync(`target/viewer/programs/${program}.wasm`);
  const { status, output } = run(wasm, existsSync(stdin) ? readFileSync(stdin) : Buffer.alloc(0));
  if (status !== 0) throw new Error(`exit status ${status}`);
  if (!output.equals(stored)) throw new Error(`${output.length} bytes, which are not the stored ${stored.length}`);
  return `${output.length} bytes, as stored`;
}

for (const program of programs) trial(`the program ${program}`, () => printed(program));
const wasm = readFileSync('target/viewer/tzofnadir.wasm');
renderings(wasm, room, trial);
helpers(wasm, trial);
modules(wasm, room, trial);
reaching(wasm, trial);
regions(wasm, room, trial);
measuring(trial);
reporting(trial);
console.log(`${tried} tried, ${good} as expected`);
process.exitCode = good === tried ? 0 : 1;
