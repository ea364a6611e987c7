// A whole program in WebAssembly, run with the functions of the C library that it imports given here.

/** What ends the run of a program that calls exit. */
class Ended extends Error {
  constructor(status) { super(`exit ${status}`); this.status = status; }
}

/** The functions of C that a program may import: `input` is what it reads, and what it writes to file 1 goes to `wrote`. */
function given(memory, input, wrote) {
  let at = 0;
  const bytes = (from, count) => new Uint8Array(memory().buffer, from, Number(count));
  return {
    read(file, to, count) {
      if (file !== 0) return -1n;
      const part = input.subarray(at, at + Number(count));
      bytes(to, part.length).set(part);
      at += part.length;
      return BigInt(part.length);
    },
    write(file, from, count) {
      if (file !== 1) return -1n;
      wrote.push(Buffer.from(bytes(from, count)));
      return count;
    },
    // by which a program that rt builds has a closed pipe be an error of write; there is none here
    __sysv_signal() { return 0n; },
    exit(status) { throw new Ended(status); },
    abort() { throw new Ended(134); },
  };
}

/** Runs the program on `input`: its exit status and what it printed. What it imports and is not given here is an error. */
export function run(wasm, input) {
  const module = new WebAssembly.Module(wasm), wrote = [];
  let instance = null;
  const env = given(() => instance.exports.memory, input, wrote);
  instance = new WebAssembly.Instance(module, { env });
  let status;
  try {
    status = instance.exports.main();
  } catch (fault) {
    if (!(fault instanceof Ended)) throw fault;
    status = fault.status;
  }
  return { status, output: Buffer.concat(wrote) };
}
