// Files and folders that are dropped. Of a folder its PGM files are taken, those of its folders too, in the order of their names.
import {tell} from './dom.js';
import {addFiles} from './films.js';

const MOST_FILES = 2000; // a folder with more was not meant

// Browsers have two ways into a folder. Chromium's handles work for a page from the disk, where its entries do not; others have
// entries alone. Both as {name, isFolder, file(), inside()}.
function ofHandle(handle) {
  return {
    name: handle.name,
    isFolder: handle.kind === 'directory',
    file: () => handle.getFile(),
    inside: async () => {
      const found = [];
      for await (const each of handle.values()) found.push(ofHandle(each));
      return found;
    },
  };
}

function ofEntry(entry) {
  return {
    name: entry.name,
    isFolder: entry.isDirectory,
    file: () => new Promise((done, failed) => entry.file(done, failed)),
    // a reader gives some at a time, and none at the end
    inside: async () => {
      const reader = entry.createReader();
      for (const found = []; ;) {
        const some = await new Promise((done, failed) => reader.readEntries(done, failed));
        if (some.length === 0) return found.map(ofEntry);
        found.push(...some);
      }
    },
  };
}

async function gather(node, found) {
  if (found.length > MOST_FILES) return;
  if (!node.isFolder) {
    if (/\.pgm$/i.test(node.name)) found.push(await node.file());
    return;
  }
  const inside = await node.inside();
  for (const each of inside.sort((a, b) => a.name < b.name ? -1 : Number(a.name > b.name))) await gather(each, found);
}

async function addFolders(coming, event) {
  const found = [];
  try {
    for (const node of await Promise.all(coming)) {
      if (node.isFolder) await gather(node, found);
      else found.push(await node.file()); // a file that is dropped by itself is opened whatever its name is
    }
  } catch (fault) {
    return tell(`The folder could not be read: ${fault.message}`);
  }
  if (found.length > MOST_FILES) return tell(`The folder has more than ${MOST_FILES} films: none opened.`);
  if (found.length === 0) return tell('The folder has no film: no file whose name ends in .pgm.');
  addFiles(found, event);
}

// What was dropped can be had during the event alone, so all of it is asked for now and read later.
export function addDropped(event) {
  const items = [...event.dataTransfer.items].filter(item => item.kind === 'file');
  const entries = items.map(item => item.webkitGetAsEntry ? item.webkitGetAsEntry() : null);
  if (!entries.some(entry => entry && entry.isDirectory)) {
    if (event.dataTransfer.files.length > 0) addFiles(event.dataTransfer.files, event);
    return;
  }
  addFolders(items.map((item, i) => item.getAsFileSystemHandle ? item.getAsFileSystemHandle().then(ofHandle) : ofEntry(entries[i])),
    event);
}
