// What the program asks of a system, where it runs in the page: its words, files that are read in pieces, and
// what it writes. Nothing leaves the page.

const NO_FILE = 2, NO_STREAM = 9, NO_SEEK = 29; // errors, by the numbers that they have on Linux
const OUTPUT = 1, ERROR = 2, FIRST_FILE = 3;
const NONE = -1n, NO_ROOM = -2n; // of a text
const PROGRAM_PAGES = 64, MOST_PAGES = 49152; // of its memory, each of 64 KiB

// Runs the program with these words. `files` are by their names, and have a size; `slice(file, from, to)` has the
// bytes of one, and throws if it can't be read. Answers its status, and its texts on output and error.
function run_program(module, words, files, slice, on_read = () => {}) {
  const memory = new WebAssembly.Memory({ initial: PROGRAM_PAGES, maximum: MOST_PAGES });
  const opened = [], written = { [OUTPUT]: [], [ERROR]: [] };
  let error = 0;
  const encode = (text) => new TextEncoder().encode(text);
  const bytes_at = (place, count) => new Uint8Array(memory.buffer, Number(place), Number(count));
  const fails = (number) => { error = number; return -1; };

  // Puts a text at the start of the room, as far as it goes, and answers its length.
  function put(text, place, size) {
    if (text === undefined) return NONE;
    const bytes = encode(text).subarray(0, Number(size));
    bytes_at(place, bytes.length).set(bytes);
    return encode(text).length <= Number(size) ? BigInt(bytes.length) : NO_ROOM;
  }

  function text_at(place) {
    const rest = new Uint8Array(memory.buffer, Number(place));
    return new TextDecoder().decode(rest.slice(0, rest.indexOf(0)));
  }

  function open(path) {
    const name = text_at(path), in_other_letters = [...files.keys()].find((key) => key.toLowerCase() === name.toLowerCase());
    const file = files.get(name) ?? files.get(in_other_letters);
    return file ? FIRST_FILE + opened.push({ file, at: 0 }) - 1 : fails(NO_FILE);
  }

  function read(stream, place, count) {
    const one = opened[stream - FIRST_FILE];
    if (!one) return 0n; // the standard input is empty
    const end = Math.min(one.at + Number(count), one.file.size);
    const bytes = slice(one.file, one.at, end);
    bytes_at(place, bytes.length).set(bytes);
    one.at += bytes.length;
    on_read(bytes.length);
    return BigInt(bytes.length);
  }

  function write(stream, place, count) {
    if (!written[stream]) return BigInt(fails(NO_STREAM));
    written[stream].push(bytes_at(place, count).slice());
    return count;
  }

  const page = {
    open, write,
    read: (stream, place, count) => {
      try { return read(stream, place, count); } catch { return BigInt(fails(5)); } // EIO
    },
    close: () => 0,
    isatty: () => 0,
    lseek: () => BigInt(fails(NO_SEEK)),
    rattle_arg: (place, room, size) => put(words[Number(place)], room, size),
    rattle_errno: () => error,
    rattle_set_errno: (number) => { error = number; },
    __xpg_strerror_r: (number, room, size) => {
      put(`${number === NO_FILE ? "it is not among the files that were opened" : "it can't be read"}\0`, room, size);
      return 0;
    },
    __sysv_signal: () => 0n,
    grows: () => {},
  };
  const { irig_main } = new WebAssembly.Instance(module, { env: { memory }, page }).exports;
  const status = irig_main();
  const text_of = async (parts) => new Blob(parts).text();
  return { status, output: text_of(written[OUTPUT]), told: text_of(written[ERROR]) };
}
