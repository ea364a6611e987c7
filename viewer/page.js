// The page's beginning: its keys, its wiring, and the worker.
import {asking, bytesOfBase64, pump, startWorker, times} from './ask.js';
import {wireCopy} from './copy.js';
import {element, tell} from './dom.js';
import {addDropped} from './drop.js';
import {addFiles, chooseBeside, dueClosing, dueOpening, listFilms, showFilm} from './films.js';
import {dueGreys} from './greys.js';
import {isUnsaved, redo, undo} from './history.js';
import {fillKeys, wireKeys} from './keys.js';
import {dueLens, wireLens} from './lens.js';
import {MODES, blink, choosePair, fit, flip, look, measurePane, setMode, turnRight, zoomBeside, zoomId, zoomTo} from './look.js';
import {wireMarks} from './marks_panel.js';
import {dueMeasures, wireMeasures} from './measure_panel.js';
// what is drawn over the pictures, from below: shading, outlines
import {wireReach} from './reach_panel.js';
import './overlay.js';
import {dueOverview, wireOverview} from './overview.js';
import {changeAround, changeClip, changeEdition, fillPanel, forgetTyping, resetDisplay, setInvert, stepFactor, stepSide,
  wirePanel} from './panel.js';
import {addKey, parts} from './parts.js';
import {STEPS} from './place.js';
import {chooseTool, wirePointer} from './pointer.js';
import {outlineNext, outlineTiles} from './reading.js';
import {dueReading, dueReport, wireReport} from './report_panel.js';
import {ask, askView, dueSaving} from './save.js';
import {dueShow, fillCaptions} from './show.js';
import {filmReady, state, want} from './state.js';

// ---- undo ----

function takeBack(way, event) {
  const film = filmReady();
  if (!film || !way(film)) return;
  forgetTyping();
  fillPanel();
  fillCaptions();
  want('draw', 'settings', event);
}

// ---- keys ----

function onceEach(act) { return event => { if (!event.repeat) act(event); }; }

addKey({keys: ['o'], what: 'open films', bare: true, act: () => element('open-input').click()});
addKey({keys: ['PageUp', '['], what: 'the film before', bare: true, act: event => chooseBeside(-1, event)});
addKey({keys: ['PageDown', ']'], what: 'the next film', bare: true, act: event => chooseBeside(1, event)});
addKey({keys: ['1'], what: 'side by side', bare: true, act: event => setMode('side', event)});
addKey({keys: ['2'], what: 'divider', bare: true, act: event => setMode('divide', event)});
addKey({keys: ['3'], what: 'in turn', bare: true, act: event => setMode('turn', event)});
addKey({keys: ['4'], what: 'two films', bare: true, act: event => setMode('pair', event)});
addKey({keys: ['b', ' '], what: 'blink: show the other one', bare: true, act: onceEach(blink)});
addKey({keys: ['+', '='], what: 'larger (also the wheel)', act: event => zoomBeside(1, event)});
addKey({keys: ['-'], what: 'smaller', act: event => zoomBeside(-1, event)});
addKey({keys: ['0'], what: '1:1', act: event => zoomTo(1024, event)});
addKey({keys: ['f'], what: 'fit: the whole film', act: fit});
addKey({keys: ['q'], what: 'turn the film by a quarter, for display', act: turnRight});
addKey({keys: ['h'], what: 'mirror the film, for display', act: flip});
addKey({keys: [','], what: 'factor down', act: event => stepFactor(-1, event)});
addKey({keys: ['.'], what: 'factor up', act: event => stepFactor(1, event)});
addKey({keys: ['c'], what: 'clip off, on', act: event => changeClip(!state.film.settings.clip, event)});
addKey({keys: ['e'], what: 'edition of the clip rule: ours, 1986',
  act: onceEach(event => changeEdition(1 - state.film.settings.edition, event))});
addKey({keys: ['a'], what: 'contrast by a grid, by own regions',
  act: onceEach(event => changeAround(!state.film.settings.around, event))});
addKey({keys: ['<'], what: 'side of own regions down', act: event => stepSide(-1, event)});
addKey({keys: ['>'], what: 'side of own regions up', act: event => stepSide(1, event)});
addKey({keys: ['i'], what: 'invert the display', act: event => setInvert(!state.film.display.invert, event)});
addKey({keys: ['r'], what: 'reset the display', act: resetDisplay});
addKey({keys: ['t'], what: 'outline the tile (own region) under the pointer; again: those used; again: none', bare: true,
  act: outlineNext});
addKey({keys: ['ctrl+z'], what: 'undo: settings, display, marks', act: event => takeBack(undo, event)});
addKey({keys: ['ctrl+y', 'ctrl+shift+z'], what: 'redo', act: event => takeBack(redo, event)});
addKey({keys: ['?'], what: 'this list', bare: true, act: () => element('keys-panel').showModal()});

// ---- wiring ----

function wireFiles() {
  const input = element('open-input');
  element('open').onclick = () => input.click();
  input.onchange = event => {
    addFiles(input.files, event);
    input.value = '';
  };
  const sample = event => addFiles([new File([bytesOfBase64('sample-film')], 'weld.pgm')], event, 'The sample is synthetic: ' +
    'a bead with its root band, three groups of pores, and a thin line of lacking fusion above the bead\'s middle.');
  element('sample').onclick = sample;
  element('welcome-sample').onclick = sample;
  // a list that is longer than its room moves sideways under the wheel
  element('films').addEventListener('wheel', event => { element('films').scrollLeft += event.deltaY; }, {passive: true});
  element('save-pgm').onclick = () => ask('film');
  element('save-record').onclick = () => ask('record');
  element('save-png').onclick = askView;
}

function wireViewBar() {
  for (const mode of MODES) element(`mode-${mode}`).onclick = event => setMode(mode, event);
  element('blink').onclick = blink;
  for (const p of STEPS) element(zoomId(p)).onclick = event => zoomTo(p, event);
  element('zoom-in').onclick = event => zoomBeside(1, event);
  element('zoom-out').onclick = event => zoomBeside(-1, event);
  element('fit').onclick = fit;
  element('pair-with').onchange = event => choosePair(Number(event.target.value), event);
  element('turn-right').onclick = turnRight;
  element('flip').onclick = flip;
  element('undo').onclick = event => takeBack(undo, event);
  element('redo').onclick = event => takeBack(redo, event);
  for (const which of ['tile', 'used']) {
    element(`outline-${which}`).onclick = () => outlineTiles(state.outlined === which ? 'none' : which);
  }
}

// Files may be dropped anywhere on the page; else the browser would leave the page for the file.
function wireDrop() {
  const page = document.documentElement;
  const carries = event => event.dataTransfer && [...event.dataTransfer.types].includes('Files');
  addEventListener('dragover', event => {
    event.preventDefault();
    page.classList.toggle('dropping', Boolean(carries(event)));
  });
  addEventListener('dragleave', event => { if (!event.relatedTarget) page.classList.remove('dropping'); });
  addEventListener('drop', event => {
    event.preventDefault();
    page.classList.remove('dropping');
    addDropped(event);
  });
}

function wireDialogs() {
  element('proved').onclick = () => element('proved-panel').showModal();
  element('keys').onclick = () => element('keys-panel').showModal();
  element('version-line').textContent = `Tzofnadir ${state.version}`;
}

// What modules added: their sections stand beneath the page's own, their tools have keys.
function takeParts() {
  for (const {id, title, body} of parts.sections) {
    const section = document.createElement('details');
    section.id = id;
    section.className = 'part';
    section.append(document.createElement('summary'), body);
    section.firstChild.textContent = title;
    element('panel').append(section);
  }
  for (const tool of parts.tools) {
    if (tool.key) addKey({keys: [tool.key], what: tool.title, act: () => chooseTool(tool)});
  }
}

// The browser asks before a page is left where something was done and not saved.
function wireLeaving() {
  addEventListener('beforeunload', event => {
    if (!state.films.some(isUnsaved)) return;
    event.preventDefault();
    event.returnValue = true; // for browsers that ask by this
  });
}

function begin() {
  state.version = element('version').textContent.trim();
  takeParts();
  wireFiles();
  wireViewBar();
  wireDrop();
  wireDialogs();
  wirePanel();
  wireMeasures();
  wireMarks();
  wireReach();
  wireReport();
  wirePointer();
  wireKeys();
  wireLeaving();
  wireCopy();
  wireLens();
  wireOverview();
  fillKeys();
  asking.sources = [dueShow, dueLens, dueMeasures, dueSaving, dueReport, dueGreys, dueClosing, dueOverview, dueOpening, dueReading];
  startWorker(state.version, tell);
  measurePane();
  showFilm(null);
  listFilms();
  pump();
}

// For tests and for who is curious: what the page shows now. Nothing of the page reads it.
window.tzofnadir = {state, look, times};
begin();
