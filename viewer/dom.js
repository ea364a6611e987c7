// Small hands on the page's elements.

export function element(id) { return document.getElementById(id); }

// A text that stays as it is leaves the page's layout alone.
export function setText(id, text) {
  if (element(id).textContent !== text) element(id).textContent = text;
}

// made('button', {id, textContent, ..}, child ..)
export function made(kind, properties, ...children) {
  const node = document.createElement(kind);
  Object.assign(node, properties);
  node.append(...children);
  return node;
}

// A message of a fault is red; a plain word is not.
export function tell(text, isPlain = false) {
  const message = element('message');
  message.textContent = text;
  message.title = text;
  message.classList.toggle('plain', isPlain);
}

// A canvas that is sized anew is made anew, which takes time.
export function sizeTo(canvas, {width, height}) {
  if (canvas.width === width && canvas.height === height) return;
  canvas.width = width;
  canvas.height = height;
}

export function frames() { return [...document.querySelectorAll('.frame')]; }
export function canvases() { return [element('canvas-scanned'), element('canvas-rendered')]; }
