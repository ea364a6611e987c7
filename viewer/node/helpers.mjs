// The page's own C in the module: sentences and digests.
import { createHash } from 'node:crypto';
import { readFileSync } from 'node:fs';
import { Library } from './library.mjs';

/** The header's sentences, by number. */
function sentences() {
  const header = readFileSync('station/tzofnadir.h', 'utf8');
  const table = header.slice(header.indexOf('text[] = {'), header.indexOf('return refusal <'));
  return [...table.matchAll(/^ *"(.*)",$/gm)].map(row => row[1]);
}

function sentencesAgree(library) {
  const wanted = sentences();
  if (wanted.length < 35) throw new Error(`the header has ${wanted.length} sentences`);
  wanted.forEach((sentence, number) => {
    if (library.sentence(number) !== sentence) throw new Error(`${number}: ${library.sentence(number)}`);
  });
  for (const number of [wanted.length, 255, 0x7fffffff, 0xffffffff])
    if (library.sentence(number) !== 'There is no refusal of this number.') throw new Error(`${number}: ${library.sentence(number)}`);
  return `${wanted.length} sentences`;
}

/** Lengths on both sides of a block's end, and a film's. */
function digestsAgree(library) {
  const lengths = [...Array(200).keys(), 393232];
  for (const length of lengths) {
    const bytes = Buffer.from(Array.from({ length }, (_, i) => (i * 167 + length) % 256));
    const wanted = createHash('sha256').update(bytes).digest('hex');
    if (library.digest(bytes) !== wanted) throw new Error(`another digest of ${length} bytes`);
  }
  return `${lengths.length} digests`;
}

export function helpers(wasm, trial) {
  const library = new Library(wasm);
  trial('viewer_refusal_text and the header', () => sentencesAgree(library));
  trial('viewer_sha256 and node\'s own', () => digestsAgree(library));
  trial('what the module imports', () => {
    const imports = WebAssembly.Module.imports(new WebAssembly.Module(wasm));
    if (imports.length > 0) throw new Error(imports.map(i => i.name).join(' '));
    return 'nothing';
  });
}
