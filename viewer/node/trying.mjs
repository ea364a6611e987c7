// What the trials that need nothing built share.
import { pathToFileURL } from 'node:url';

export function same(what, seen, wanted) {
  const [a, b] = [seen, wanted].map(value => JSON.stringify(value));
  if (a !== b) throw new Error(`${what}: seen ${a}, expected ${b}`);
}

/** Runs a file's trials with a count of their own, where that file is the program. */
export function alone(url, trials) {
  if (url !== pathToFileURL(process.argv[1]).href) return;
  let tried = 0, good = 0;
  trials((what, saw) => {
    tried += 1;
    try {
      console.log(`as expected      ${what.padEnd(82)} ${saw()}`);
      good += 1;
    } catch (fault) {
      console.log(`NOT AS EXPECTED  ${what.padEnd(82)} ${fault.message}`);
    }
  });
  console.log(`${tried} tried, ${good} as expected`);
  process.exitCode = good === tried ? 0 : 1;
}
