// The report as one page for the browser's print. From the same values as the JSON, so that both say the same.
import {EDITIONS} from './calls.js';
import {kindText} from './marks.js';
import {regionWords} from './numbers.js';

function safeText(value) {
  return String(value).replace(/[&<>"']/g, c => ({'&': '&amp;', '<': '&lt;', '>': '&gt;', '"': '&quot;', "'": '&#39;'})[c]);
}

// A number as it is shown, or a dash.
function shownCell(value, unit = '') {
  if (value === null || value === undefined) return '–';
  return safeText(typeof value === 'object' ? value.text : value) + (unit && ` ${unit}`);
}

function factRow(name, cell) { return `<tr><th>${safeText(name)}</th><td>${cell}</td></tr>`; }

function fileRow(name, it, film) {
  return factRow(name, `${safeText(it.name)}<br><span class="digest">SHA-256 ${safeText(it.digest)}</span><br>` +
    `${it.bytes} bytes, ${film.width} by ${film.height} pixels, maxval ${film.maxval}`);
}

function settingsRow(s, footer) {
  const clip = s.clip ? `clip factor ${safeText(footer.asked)} asked, ${safeText(footer.used)} used, L ${footer.limit}`
    : 'clip off';
  const by = s.around ? regionWords(s) : `grid ${s.across} by ${s.down}`;
  return factRow('Settings', `${by}, ${s.bins || 128} bins, range ${s.min} to ${s.max}, ${clip}`);
}

function displayRow(d) {
  const low = d.level - Math.floor(d.width / 2);
  return factRow('Display of the pictures', `level ${d.level}, window ${d.width}: ${low} to ${low + d.width - 1}` +
    `${d.invert ? ', inverted' : ''}; 8 bits${d.auto ? '; the scanned side by a window of its own greys' : ''}`);
}

function factsTable(facts) {
  const {film, output, told} = facts;
  return `<table class="facts">${fileRow('Film as scanned', film, film)}${fileRow('Rendered film', output, film)}` +
    settingsRow(facts.settings, facts.footer) + factRow('Edition of the clip rule', EDITIONS[facts.settings.edition]) + displayRow(told.display) +
    factRow('Pixel pitch', told.pitch_um ? shownCell(told.pitch_um, 'µm') : 'not entered: lengths are in pixels') +
    factRow('Basic resolution', told.resolution_um ? `SR<sub>b</sub> ${shownCell(told.resolution_um, 'µm')}` : 'not entered') +
    `${factRow('Made by', `Tzofnadir ${safeText(facts.version)}, report form ${told.form}`)}</table>`;
}

function greysText(g) {
  return `mean ${shownCell(g.mean)}, deviation ${shownCell(g.deviation)}, SNR ${shownCell(g.snr)}, ` +
    `SNR<sub>N</sub> ${shownCell(g.snr_n)}; greys ${g.least} to ${g.greatest}, ${g.pixels} pixels`;
}

function placeText(box) {
  const mm = box.mm ? `<br>at ${shownCell(box.mm.left)}, ${shownCell(box.mm.top)} mm; ${shownCell(box.mm.width)} by ` +
    `${shownCell(box.mm.height)} mm` : '';
  return `column ${box.left}, row ${box.top}; ${box.width} by ${box.height} pixels${mm}`;
}

// ---- the line ----

function profileSvg(line) {
  const values = line.samples.map(each => Number(each.text));
  const [low, high] = [Math.min(...values), Math.max(...values)];
  const x = i => (10 + 580 * i / (values.length - 1)).toFixed(2);
  const y = value => (high === low ? 60 : 110 - 100 * (value - low) / (high - low)).toFixed(2);
  const ends = [line.from, line.to].map(i => `<line x1="${x(i)}" y1="5" x2="${x(i)}" y2="115" stroke="#999"/>`);
  return `<svg viewBox="0 0 600 120" class="profile" role="img" aria-label="Profile of the scanned greys">` +
    `<rect x="0.5" y="0.5" width="599" height="119" fill="none" stroke="#bbb"/>${ends.join('')}` +
    `<polyline fill="none" stroke="#000" points="${values.map((value, i) => `${x(i)},${y(value)}`).join(' ')}"/></svg>` +
    `<p class="small">Scanned greys ${low.toFixed(2)} to ${high.toFixed(2)}, samples 0 to ${values.length - 1}.</p>`;
}

function lineText(line) {
  const dip = line.dip ? `dip ${shownCell(line.dip.percent)} % between samples ${line.from} and ${line.to} ` +
    `(A ${shownCell(line.dip.a)}, B ${shownCell(line.dip.b)}, C ${shownCell(line.dip.c)} at sample ${line.dip.at})` : 'no dip';
  return `from column ${line.x0}, row ${line.y0} to column ${line.x1}, row ${line.y1}: ` +
    `${shownCell(line.distance_pixels)} pixels${line.distance_mm ? `, ${shownCell(line.distance_mm)} mm` : ''}; ` +
    `profile over ${line.lanes} lane${line.lanes > 1 ? 's' : ''}, ${dip}`;
}

function measuresPart(told) {
  const rows = (told.line ? factRow('Line', lineText(told.line) + profileSvg(told.line)) : '') +
    (told.region ? factRow('Region', `${placeText(told.region)}<br>${greysText(told.region.scanned)}`) : '');
  return rows ? `<h2>Measured on the scanned greys</h2><table class="facts">${rows}</table>` : '';
}

// ---- the marks ----

// The outline lies over the picture, not in it. Sizes stand in attributes: the page's policy takes no style from a text.
function markFigure(mark, side, label) {
  const p = mark.picture;
  const wide = Math.ceil(p.width / p.block);
  const zoom = Math.max(1, Math.floor(320 / wide));
  const outline = `x="${mark.left - p.left}" y="${mark.top - p.top}" width="${mark.width}" height="${mark.height}"`;
  return `<figure><div class="shot"><img alt="mark ${mark.number}, ${label}" width="${wide * zoom}" ` +
    `src="data:image/png;base64,${p[side]}"><svg viewBox="0 0 ${p.width} ${p.height}" preserveAspectRatio="none">` +
    `<rect class="under" ${outline}/><rect class="over" ${outline}/></svg></div><figcaption>${label}, columns ${p.left} to ` +
    `${p.left + p.width - 1}, rows ${p.top} to ${p.top + p.height - 1}` +
    `${p.block > 1 ? `, means of ${p.block} by ${p.block}` : ''}</figcaption></figure>`;
}

function markPart(mark) {
  return `<section class="mark"><h3>Mark ${mark.number}: ${safeText(kindText(mark.kind))}</h3><p>${placeText(mark)}</p>` +
    `<p>Scanned: ${greysText(mark.scanned)}</p>${mark.text ? `<p class="said">${safeText(mark.text)}</p>` : ''}` +
    `<div class="shots">${markFigure(mark, 'scanned', 'as scanned')}${markFigure(mark, 'rendered', 'rendered')}</div></section>`;
}

// facts: {version, film, output, settings, footer, told, seal}.
export function reportHtml(facts) {
  const {told} = facts;
  const marks = told.marks.length ? told.marks.map(markPart).join('') : '<p>No indication is marked.</p>';
  return `<article class="report"><h1>Radiograph reading: ${safeText(facts.film.name)}</h1>${factsTable(facts)}` +
    measuresPart(told) +
    `<h2>Indications: ${told.marks.length}</h2>${marks}` +
    '<p class="small">All numbers are of the scanned greys, none of the rendered ones. Film density is not read off the ' +
    'rendered picture. Kinds by ISO 6520-1. How each number is defined stands in docs/MEASURE.md.</p>' +
    `<p class="small digest">Report SHA-256 ${safeText(facts.seal)}</p>` +
    '<table class="sign"><tr><td>Name</td><td>Date</td><td>Signature</td></tr></table></article>';
}

// A file of its own. css: the style of .report.
export function reportFile(title, css, html) {
  return '<!doctype html>\n<html lang="en">\n<head>\n<meta charset="utf-8">\n' +
    '<meta http-equiv="Content-Security-Policy" content="default-src \'none\'; img-src data:; style-src \'unsafe-inline\'">\n' +
    `<title>${safeText(title)}</title>\n<style>\n${css}\n<\/style>\n</head>\n<body>\n${html}\n</body>\n</html>\n`;
}
