// ---- the codec: what the page asks the module of c_reader

const SYMBOLS = "01P?";
const MOST_SYMBOLS = 101; // enough to see that there are too many
const CODEC_PAGES = 32; // of memory: the stack has 16 of them

class Codec {
  constructor(module) {
    const memory = new WebAssembly.Memory({ initial: CODEC_PAGES, maximum: CODEC_PAGES });
    this.calls = new WebAssembly.Instance(module, { env: { memory } }).exports;
    this.view = new DataView(memory.buffer);
    this.places = {};
    let place = Math.ceil(Number(this.calls.__heap_base.value) / 16) * 16;
    const bytes = { symbols: { size: MOST_SYMBOLS }, text: { size: 20 } };
    for (const [name, { size }] of Object.entries({ ...LAYOUT, ...bytes })) {
      this.places[name] = place;
      place += Math.ceil(size / 16) * 16;
    }
  }

  ask(call, ...words) { // places and numbers; a place is 64 bits wide
    const given = words.map((word) => (Number.isInteger(word) ? word : BigInt(word.at)));
    return this.calls[`irig_c_${call}`](...given) >>> 0;
  }

  at(name) { return { at: this.places[name] }; }

  bytes(name, count) { return new Uint8Array(this.view.buffer, this.places[name], count); }

  // The numbers of a structure by their names; and puts some of them there, and 0 for all others.
  numbers_of(name) {
    const fields = Object.entries(LAYOUT[name]).filter(([, field]) => field.reads);
    return Object.fromEntries(fields.map(([key, field]) => [key, get(this.view, this.places[name], field)]));
  }

  put(name, numbers) {
    this.bytes(name, LAYOUT[name].size).fill(0);
    for (const [key, number] of Object.entries(numbers)) {
      const { at, reads } = LAYOUT[name][key];
      this.view[reads.replace("get", "set")](this.places[name] + at, Number(number), true);
    }
  }

  // The place of a second by its text, if it is one of the years served.
  second_of(text) {
    const letters = new TextEncoder().encode(text);
    if (letters.length !== 20) return false;
    this.bytes("text", 20).set(letters);
    return this.ask("second_read", this.at("text"), { at: 20 }, this.at("utc")) === 0;
  }

  // The frame of a second with these control bits, as 100 symbols; null if the text is of no second.
  frame(text, { local, pending, dst_pending, dst, quality, is_odd }) {
    if (!this.second_of(text)) return null;
    const leap = { leap_pending: pending !== "", leap_delete: pending === "delete" };
    this.put("control", { ...leap, dst_pending, dst, offset_half_hours: -local, quality });
    const places = [this.at("control"), Number(is_odd), this.at("symbols")];
    const answer = this.ask("frame_of", this.at("utc"), local, ...places);
    return answer ? null : [...this.bytes("symbols", 100)];
  }

  // What symbols, 101 at most, read as: the coded time and what its control bits say, or its first fault.
  decode(symbols) {
    this.bytes("symbols", symbols.length).set(symbols);
    const answer = this.ask("decode", this.at("symbols"), { at: symbols.length }, this.at("coded"));
    if (answer) return { fault: fault_of(answer) };
    const coded = this.numbers_of("coded");
    this.ask("control_unpack", coded.control, this.at("control"));
    return { coded, control: this.numbers_of("control") };
  }

  // The fault that a port of these rules, by their numbers, finds in symbols; none if it finds none.
  fault_told(symbols, [parity, sense, sbs]) {
    this.put("setup", { parity, sense, sbs, lock_after: 1 });
    this.put("table", {});
    this.ask("reader_init", this.at("reader"), this.at("setup"), this.at("table"));
    for (const symbol of symbols)
      this.ask("reader_pulse", this.at("reader"), 0, this.ask("width_us", symbol));
    this.ask("reader_port", this.at("reader"), 0, this.at("told"));
    const { kind, fault } = this.numbers_of("told");
    return kind === NUMBERS.TOLD_FAULT ? fault_of(fault) : null;
  }

  // The first fault of symbols, then what is wrong besides, each found once those before it are mended.
  faults(symbols) {
    const mended = symbols.slice(0, MOST_SYMBOLS), found = [];
    for (let { fault } = this.decode(mended); fault; { fault } = this.decode(mended)) {
      if (!ELEMENT_FAULTS.includes(fault.number) || fault.detail < symbols.length) found.push(fault);
      this.mend(mended, fault);
    }
    return { found, mended };
  }

  mend(symbols, { number, detail }) {
    if (number === FAULT_SHORT) {
      while (symbols.length < 100) symbols.push(SYMBOLS.indexOf("?"));
    } else if (number === FAULT_LONG) {
      symbols.length = 100;
    } else if (number === FAULT_MARKER) {
      symbols[detail] = symbols[detail] === 2 ? 0 : 2;
    } else if (number === FAULT_PULSE) {
      symbols[detail] = data.elements[detail].field === "marker" ? 2 : 0;
    } else {
      for (const { element, weight } of elements_of(FIELDS[detail])) symbols[element] = weight === 1 ? 1 : 0;
    }
  }
}

const named = (fault) => fault_words(fault).join(" "); // as `irig read` writes it

const elements_of = (field) => data.elements.filter((each) => each.field === field);

const frame_text = (symbols) => { // as `irig frame` prints it
  const letters = symbols.map((symbol) => SYMBOLS[symbol]).join("");
  return (letters.match(/.{1,10}/g) || []).join(" ");
};

// The symbols of a text, blanks and ends of lines left out; the place of the first letter of none.
function symbols_of(text) {
  const symbols = [];
  for (const [place, letter] of [...text].entries()) {
    const symbol = SYMBOLS.indexOf(letter);
    if (symbol >= 0) symbols.push(symbol);
    else if (letter.trim()) return { wrong: { place, letter } };
  }
  return { symbols };
}

// ---- the lines that `irig read` prints, by the module of c_scenario; each call has a memory of its own

const TEXT_PAGES = 64, MOST_TEXT_PAGES = 1024; // of memory
const LINES_ROOM = 256; // bytes: more than the lines have

class Texts {
  constructor(module) { this.module = module; }

  // What a frame says under these rules, by their numbers: parity, sense, sbs; null of a text that is no frame.
  lines(text, [parity, sense, sbs]) {
    const memory = new WebAssembly.Memory({ initial: TEXT_PAGES, maximum: MOST_TEXT_PAGES });
    const { exports } = new WebAssembly.Instance(this.module, { env: { memory }, page: { grows() {} } });
    const given = new TextEncoder().encode(text.replace(/\s/g, " "));
    const [from, lines, whole] = [given.length || 1, LINES_ROOM, 8].map((size) => exports.heap_give(BigInt(size)));
    new Uint8Array(memory.buffer).set(given, Number(from));
    const words = [from, BigInt(given.length), parity, sense, sbs, lines, BigInt(LINES_ROOM), whole];
    if (exports.irig_scene_c_frame_lines(...words) & 255) return null;
    const size = Number(new DataView(memory.buffer).getBigUint64(Number(whole), true));
    return new TextDecoder().decode(new Uint8Array(memory.buffer, Number(lines), size));
  }
}
