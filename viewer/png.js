// A picture of shades as a PNG file: 8 bits, grey, not compressed, so that the same dots are the same bytes in every browser.

const PNG_SIGNATURE = [0x89, 0x50, 0x4e, 0x47, 0x0d, 0x0a, 0x1a, 0x0a];
const MOST_STORED = 65535; // bytes of a stored block

const CRC_TABLE = Uint32Array.from({length: 256}, (_, byte) => {
  let value = byte;
  for (let bit = 0; bit < 8; bit++) value = value & 1 ? value >>> 1 ^ 0xedb88320 : value >>> 1;
  return value;
});

function crcOf(bytes) {
  let value = 0xffffffff;
  for (const byte of bytes) value = CRC_TABLE[(value ^ byte) & 255] ^ value >>> 8;
  return (value ^ 0xffffffff) >>> 0;
}

function adlerOf(bytes) {
  let low = 1;
  let high = 0;
  for (const byte of bytes) {
    low = (low + byte) % 65521;
    high = (high + low) % 65521;
  }
  return (high * 65536 + low) >>> 0;
}

function bigEndian(value) { return [value >>> 24, value >>> 16 & 255, value >>> 8 & 255, value & 255]; }

function joinedBytes(parts) {
  const all = new Uint8Array(parts.reduce((sum, part) => sum + part.length, 0));
  let at = 0;
  for (const part of parts) {
    all.set(part, at);
    at += part.length;
  }
  return all;
}

function pngChunk(kind, body) {
  const named = joinedBytes([[...kind].map(c => c.charCodeAt(0)), body]);
  return joinedBytes([bigEndian(body.length), named, bigEndian(crcOf(named))]);
}

// Stored blocks of the zlib form.
function storedOf(bytes) {
  const parts = [[0x78, 0x01]];
  for (let at = 0; at === 0 || at < bytes.length; at += MOST_STORED) {
    const piece = bytes.subarray(at, at + MOST_STORED);
    const {length} = piece;
    parts.push([at + MOST_STORED >= bytes.length ? 1 : 0, length & 255, length >> 8, ~length & 255, ~length >> 8 & 255], piece);
  }
  parts.push(bigEndian(adlerOf(bytes)));
  return joinedBytes(parts);
}

// shades: a byte a dot, row by row.
export function pngOf(shades, width, height) {
  const lines = new Uint8Array((width + 1) * height); // each behind the byte of its filter, none
  for (let y = 0; y < height; y++) lines.set(shades.subarray(y * width, (y + 1) * width), y * (width + 1) + 1);
  return joinedBytes([PNG_SIGNATURE, pngChunk('IHDR', [...bigEndian(width), ...bigEndian(height), 8, 0, 0, 0, 0]),
    pngChunk('IDAT', storedOf(lines)), pngChunk('IEND', [])]);
}

export function base64Of(bytes) {
  let text = '';
  for (let at = 0; at < bytes.length; at += 32768) text += String.fromCharCode(...bytes.subarray(at, at + 32768));
  return btoa(text);
}
