// Settings copied from the film that is looked at to others: to those alone that are named in the word that is pressed.
import {element, made, tell} from './dom.js';
import {changeSettings} from './panel.js';
import {settingsWords} from './save.js';
import {filmReady, state} from './state.js';

function others() { return state.films.filter(film => film.ready && film !== state.film); }
function filmNamed(film) { return `film ${film.number} ${film.name}`; }
function chosen() { return others().filter(film => element(`copy-${film.number}`).checked); }

function fillWord() {
  const films = chosen();
  element('copy-do').disabled = films.length === 0;
  element('copy-do').textContent = films.length === 0 ? 'Copy to no film' : `Copy to ${films.map(filmNamed).join(', ')}`;
}

function lineOf(film) {
  const box = made('input', {id: `copy-${film.number}`, type: 'checkbox'});
  box.onchange = fillWord;
  const words = ` ${filmNamed(film)}, ${film.width} × ${film.height}, maxval ${film.maxval}`;
  return made('li', {}, made('label', {className: 'check'}, box, words));
}

export function openCopy() {
  const film = filmReady();
  if (!film) return;
  element('copy-from').textContent = `From ${filmNamed(film)}: ${settingsWords(film.settings)}.`;
  element('copy-list').replaceChildren(...others().map(lineOf));
  element('copy-none').hidden = others().length > 0;
  fillWord();
  element('copy-panel').showModal();
}

// Each film gets them as one step that undo takes back; a film that does not take them is told of when it is looked at.
function copy(event) {
  const from = filmReady();
  const films = chosen();
  for (const film of films) {
    changeSettings(film, '', event, settings => {
      film.binsChosen = from.binsChosen;
      Object.assign(settings, from.settings);
    });
  }
  if (films.length > 0) tell(`Settings of ${filmNamed(from)} copied to ${films.map(filmNamed).join(', ')}.`, true);
}

export function wireCopy() {
  element('copy').onclick = openCopy;
  element('copy-do').onclick = copy;
}
