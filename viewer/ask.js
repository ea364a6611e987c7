// The way to the worker. At most one request is under way; what is due beside it waits in the page's state, where a newer
// wish takes an older one's place. So nothing queues up, and the newest setting wins.

const SLOW = 100; // ms until an answer that is not there gets a sign of progress
const MOST_TIMES = 5000;

export const asking = {
  worker: null,
  beside: null, // a second one, which the first one asks
  under: null, // the request under way
  last: 0, // its number
  timer: 0,
  isSlow: false, // whether the sign of progress stays up until the next answer
  sources: [], // functions that give the next request or null, the most urgent first
  due: new Set(), // numbers that are being typed
  painting: 0, // answers that are drawn and not yet painted
};

// From an input event to right behind the paint of the frame that shows its effect, in ms: the frame's callback posts a
// message, which the browser delivers behind that frame's paint.
export const times = [];

export function tellBusy() {
  const busy = asking.under || asking.due.size > 0 || asking.painting > 0;
  document.documentElement.dataset.busy = busy ? '1' : '0';
}

function tellSlow(text) {
  document.getElementById('progress').classList.toggle('on', text !== '');
  document.getElementById('progress-text').textContent = text;
}

function send(request) {
  asking.under = request;
  if (!asking.isSlow) asking.timer = setTimeout(() => tellSlow(request.slow), SLOW);
  asking.worker.postMessage({...request.message, id: ++asking.last}, request.transfer || []);
}

// Sends what is due, if nothing is under way.
export function pump() {
  for (const source of asking.sources) {
    if (asking.under) break;
    const request = source();
    if (request) send(request);
  }
  if (!asking.under) tellPart(null);
  tellBusy();
}

// What is answered in part: how much of it is there, from 0 to 1. The sign stays up while the rest is asked for.
function tellPart(request, share) {
  asking.isSlow = Boolean(request);
  tellSlow(request ? `${request.slow}: ${Math.floor(100 * share)} %` : '');
}

// An answer that is there in part is asked for again, unless something newer is wished by then: a request has a way for that,
// `again`, beside `done`.
function answered(answer) {
  const request = asking.under;
  if (!request || answer.id !== asking.last) return;
  const isPart = answer.unfinished !== undefined;
  clearTimeout(asking.timer);
  tellPart(isPart ? request : null, answer.unfinished);
  asking.under = null;
  try {
    (isPart ? request.again : request.done)(answer);
  } finally {
    pump(); // whatever happened to this answer, the next wish is not kept waiting
  }
}

function behindPaint(then) {
  requestAnimationFrame(() => {
    const channel = new MessageChannel();
    channel.port1.onmessage = then;
    channel.port2.postMessage(0);
  });
}

// marks: [{what, at}], the input events whose effect has just been drawn.
export function keepTimes(marks) {
  if (marks.length === 0) return;
  asking.painting++;
  behindPaint(() => {
    const now = performance.now();
    for (const {what, at} of marks) times.push({what, ms: now - at});
    if (times.length > MOST_TIMES) times.splice(0, MOST_TIMES / 2);
    asking.painting--;
    tellBusy();
  });
}

export function bytesOfBase64(id) {
  const text = atob(document.getElementById(id).textContent.replace(/\s/g, ''));
  const bytes = new Uint8Array(text.length);
  for (let i = 0; i < text.length; i++) bytes[i] = text.charCodeAt(i);
  return bytes;
}

// The most memory for all films together, in MiB, where the page is opened with #memory=MIB; else what the browser gives.
function mostMemory() {
  const asked = /[#&]memory=(\d+)/.exec(location.hash);
  return asked ? Number(asked[1]) * 1048576 : Infinity;
}

// A second worker for a part of large windows, where there is a processor for it: the way to it, for the first one.
function startBeside(address, wasm) {
  if (!(navigator.hardwareConcurrency > 1)) return null;
  const {port1, port2} = new MessageChannel();
  asking.beside = new Worker(address);
  asking.beside.postMessage({kind: 'help', port: port2, wasm}, [port2]);
  return port1;
}

export function startWorker(version, failed) {
  const text = document.getElementById('worker').textContent;
  const address = URL.createObjectURL(new Blob([text], {type: 'text/javascript'}));
  asking.worker = new Worker(address);
  asking.worker.onmessage = event => answered(event.data);
  asking.worker.onerror = event => failed(`The page's worker failed: ${event.message}`);
  const wasm = bytesOfBase64('wasm').buffer;
  const beside = startBeside(address, wasm);
  send({
    message: {kind: 'start', wasm, version, memory: mostMemory(), beside},
    transfer: beside ? [wasm, beside] : [wasm],
    slow: 'starting',
    done: answer => { if (answer.fault) failed(`The library could not be started: ${answer.fault}`); },
  });
}
