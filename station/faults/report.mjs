// report.mjs FILM.pgm RECORD.json OUT.json: a report of the reading page by the page's own functions, with a line, a region and
// a mark, of a film of 12 bits and its record. Its pictures are stand-ins.
import { createHash } from 'node:crypto';
import { readFileSync, writeFileSync } from 'node:fs';
import { basename } from 'node:path';
import { EDITIONS } from '../../viewer/calls.js';
import * as marks from '../../viewer/marks.js';
import * as report from '../../viewer/report.js';

const sha256 = bytes => createHash('sha256').update(bytes).digest('hex');
const [filmName, recordName, outName] = process.argv.slice(2);
const bytes = readFileSync(filmName), record = readFileSync(recordName, 'utf8');
const { input: { width, height, maxval }, settings } = JSON.parse(record);
const raster = bytes.subarray(bytes.length - 2 * width * height);
const film = { width, height, maxval, name: basename(filmName), digest: sha256(bytes), bytes: bytes.length,
  greys: Uint16Array.from({ length: width * height }, (_, i) => raster.readUInt16BE(2 * i)) };
const reading = {
  display: { level: 2048, width: 4096, invert: false, auto: false }, pitch: '50', resolution: null,
  line: { x0: 300, y0: 140, x1: 300, y1: 175, lanes: 5, from: 3, to: 30 }, region: { left: 290, top: 150, width: 80, height: 14 },
  marks: [{ number: 1, kind: '2011', left: 300, top: 150, width: 20, height: 12, text: 'a "pore" é' }],
};
const pictures = reading.marks.map(mark => ({ ...marks.markPicture(film, mark), scanned: 'AAAA', rendered: 'BBBB' }));
const body = report.unsealed(record, report.toldOf(film, reading, pictures, EDITIONS.indexOf(settings.edition)));
writeFileSync(outName, report.sealed(body, sha256(Buffer.from(body, 'utf8'))));
