// bins.mjs TABLE: the page's choice of bins, held to the table. Prints each row that says another number.
import { readFileSync } from 'node:fs';
import { chosenBins, factorOf } from '../../viewer/numbers.js';

let wrong = 0;
for (const line of readFileSync(process.argv[2], 'utf8').split('\n')) {
  if (line === '' || line.startsWith('#')) continue;
  const [size, grid, range, clip, bins] = line.split(' ');
  const [width, height] = size.split('x').map(Number);
  const [across, down] = grid.split('x').map(Number);
  const [min, max] = range.split(':').map(Number);
  const s = { across, down, min, max, clip: clip === 'off' ? 0 : 1, factor: clip === 'off' ? 3 : factorOf(clip) };
  const found = chosenBins(s, { width, height });
  if (found !== Number(bins)) {
    console.log(`${line} and by the page ${found}`);
    wrong++;
  }
}
process.exit(wrong === 0 ? 0 : 1);
