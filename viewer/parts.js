// What modules add to the page: sections of the panel, drawings over the pictures, keys, tools for the pointer, and what undo
// brings back. A module adds its parts where it is loaded; the page takes them up when it begins.

export const parts = {sections: [], overlays: [], watches: [], keys: [], tools: [], kept: []};

// A section of the panel, beneath those that are there: {id, title, body, fill}. body: an element; fill(film): called whenever
// the panel is filled, with the film that is looked at, or null.
export function addSection(section) { parts.sections.push(section); }

// A drawing over both pictures, never into their pixels: draw(pen, place, film, side), where pen is a 2D context in dots of the
// pane, cleared before; place: for toDot and toFilm (place.js); side: 'scanned' or 'rendered'. has(film): whether there is
// anything to be drawn over a film.
export function addOverlay(draw, has) { parts.overlays.push({draw, has}); }

// act(place) is called behind every painting, and with null where nothing is on the panes.
export function addWatch(act) { parts.watches.push(act); }

// A key: {keys, what, act, bare, names}. keys: as KeyboardEvent.key has them, with 'ctrl+' before one that wants it; what: the words
// in the list of keys; act(event); bare: it acts without a film too; names: how the list names the keys, where not by themselves.
// No two share a key.
export function addKey(key) {
  const taken = parts.keys.find(each => each.keys.some(name => key.keys.includes(name)));
  if (taken) throw new Error(`a key of '${key.what}' is taken by '${taken.what}'`);
  parts.keys.push(key);
}

// A tool for the pointer: {id, label, title, key, press, move, release, cancel}. press(at), move(at) and release(at) get what is
// pointed at: {x, y} in the film's pixels with a fraction, held to the film, {column, row} of the pixel, its film, side and the
// event. move is called between press and release alone. cancel() ends what was begun. By keys, Enter presses and releases at the
// pixel that is read, and Shift with arrows moves it.
export function addTool(tool) { parts.tools.push(tool); }

// Something of a film that undo and redo bring back: {name, read, write}. read(film): a copy of it; write(film, copy). unsaved:
// it is work that is lost unless something is saved, so the page asks before it is left.
export function addKept(part) { parts.kept.push(part); }
