// What the worker of a run does: the proved module plays a scenario three times, for the entries of its log in
// numbers, for the lanes of its picture, and for its text. Each run has a memory of its own. Each scenario has a
// worker of its own, as a module that trapped may not be called again.

const PAGE = 65536, FIRST_PAGES = 64; // of the module's memory
const SPARE = 1 << 22, LEAST_ROOM = 1 << 12; // bytes for all but what is written; entries, or lanes
const NEWLINE = 10, BLANKS = [32, 9, 13, NEWLINE];
const REASON_ROOM = 4096; // bytes: more than a reason has
const LINE_ROOM = 64, WORD_ROOM = 24, MOST_PORTS = 5; // bytes of an entry's line, and of a port's word, about

const {
  entry: ENTRY, device_entry: DEVICE_ENTRY, lane: LANE, told: TOLD, claim: CLAIM, utc: UTC, verdict: VERDICT, refusal: REFUSAL,
} = LAYOUT;

// ---- the module

// Its calls, over a memory of their own with at most so many bytes, and the places of blocks of these sizes there,
// 0 if there is no room; the scenario stands in the first. When a block grows, it tells to how many bytes.
function begun({ module, text, most }, sizes, on_growth) {
  const memory = new WebAssembly.Memory({ initial: FIRST_PAGES, maximum: Math.floor(most / PAGE) });
  const grows = (bytes) => on_growth(Number(bytes));
  const calls = new WebAssembly.Instance(module, { env: { memory }, page: { grows } }).exports;
  const places = [text.length, ...sizes].map((size) => calls.heap_give(BigInt(size || 1)));
  if (places[0]) new Uint8Array(memory.buffer).set(text, Number(places[0]));
  return { memory, calls, places };
}

// ---- the runs

function plant_in(text) { // the plant line, which the module took
  const from = text.findIndex((byte) => !BLANKS.includes(byte)), end = text.indexOf(NEWLINE, from);
  return JSON.parse(new TextDecoder().decode(text.subarray(from, end < 0 ? text.length : end)));
}

const names_of = ({ readers, devices }) => (readers || devices).map(({ name }) => name);

function start_of({ start }) { // its day, and the second of that
  const [hour, minute, second] = start.slice(11, 19).split(":").map(Number);
  const day = (Date.parse(`${start.slice(0, 10)}T00:00:00Z`) - Date.UTC(2000, 0, 1)) / (1000 * WHOLE_DAY);
  return [day, 3600 * hour + 60 * minute + second];
}

// How many entries a scenario asks for, at most.
function entries_in(text) {
  const lines = new TextDecoder().decode(text), seconds = [...lines.matchAll(/"n"\s*:\s*(\d{1,6})/g)];
  const readers = lines.split('"name"', 17).length - 1;
  return lines.split('"tick"').length + readers * seconds.reduce((sum, [, count]) => sum + Number(count), 0);
}

// Why a scenario is refused: the line, the number and the reason in words; null if it is not.
function refusal_in(view, place, reason) {
  const [line, whole, number] = ["line", "whole", "number"].map((name) => get(view, place, REFUSAL[name]));
  if (!line) return null;
  const text = new TextDecoder().decode(new Uint8Array(view.buffer, reason, Math.min(whole, REASON_ROOM)));
  return { line, number, reason: text };
}

// What is written of a scenario, so many bytes each, and the call that writes it.
const in_numbers = (call, { size }) => (
  { size, play: (calls, text, room, verdict, reason) => calls[call](...text, ...room, verdict, ...reason) });
const ENTRIES = in_numbers("irig_scene_c_run_entries", ENTRY), LANES = in_numbers("irig_scene_c_run_lanes", LANE);
const DEVICES = in_numbers("irig_scene_c_run_told", DEVICE_ENTRY);
const OTHER_VERSION = 27; // as which a plant of devices is refused where readers are asked for
const text_with = ({ all, ports }) => ({
  size: 1,
  play: (calls, text, room, _, reason) =>
    calls.irig_scene_c_run_shown(...text, Number(all), Number(ports), ...room, ...reason),
});

const has_ended = ({ status }) => status === RUN_DONE || status === RUN_REFUSED;

// Room for so many entries or lanes: the run's own copy of them may take twice as much.
const room_for = (count, { size }, { most }) =>
  Math.min(Math.max(LEAST_ROOM, count), Math.floor((most / 3 - SPARE) / size));

// A run, with room for so much of what is written; if that is too little it runs once more, in a new memory.
function run_of(asked, written, room, on_growth = () => {}) {
  const sizes = [8, VERDICT.size, REASON_ROOM, REFUSAL.size, room * written.size];
  const { memory, calls, places } = begun(asked, sizes, on_growth);
  const [from, whole, verdict, reason, refusal, items] = places;
  if (!places.every(Boolean)) {
    const status = places.slice(0, -1).every(Boolean) ? RUN_NO_LOG : RUN_NO_MEMORY;
    return { status, count: 0, items: 0, refusal: null, view: new DataView(memory.buffer) };
  }
  const text = [from, BigInt(asked.text.length)], room_at = [items, BigInt(room), whole];
  const status = written.play(calls, text, room_at, verdict, [reason, BigInt(REASON_ROOM), refusal]) & 255;
  const view = new DataView(memory.buffer), count = Number(view.getBigUint64(Number(whole), true));
  if (count > room) return run_of(asked, written, count, on_growth);
  const why = refusal_in(view, Number(refusal), Number(reason));
  return { status, count, items: Number(items), refusal: why, view, verdict: Number(verdict) };
}

// The text of the log of so many entries, and how the run that wrote it ended.
function log_of(asked, count) {
  const room = SPARE + count * (LINE_ROOM + (asked.shown.ports ? MOST_PORTS * WORD_ROOM : 0));
  const { status, refusal, count: size, items, view } = run_of(asked, text_with(asked.shown), room);
  return { status, refusal, log: new Uint8Array(view.buffer, items, size).slice() };
}

const text_of_line = (log, starts, line) => new TextDecoder().decode(log.subarray(starts[line], starts[line + 1] - 1));

function starts_of(log) { // of its lines, and at last where they end
  const starts = [];
  for (let at = 0; at < log.length; at = log.indexOf(NEWLINE, at) + 1 || log.length) starts.push(at);
  starts.push(log.length);
  return new Uint32Array(starts);
}

// ---- what is drawn

const STATE_OF_LOCK = LOCKS.map((lock) => STATE_NAMES.indexOf(lock));
const MARKS = { // how far before its edge something is drawn, and what
  [NUMBERS.LANE_MARK_LEAP]: [[0, "leap second"]],
  [NUMBERS.LANE_MARK_DELETED]: [[0.5, "deleted second"], [0.5, "month end"]],
  [NUMBERS.LANE_MARK_MONTH]: [[0.5, "month end"]],
};
const WHOLE_DAY = 86400; // seconds; and of a day that has more the second 23:59:60

const second_in = (view, claim) => [UTC.day, UTC.sod].map((field) => get(view, claim + CLAIM.at.at, field));

class Table { // rows of numbers, as columns
  constructor(...names) {
    this.named = Object.fromEntries(names.map((name) => [name, []]));
    this.columns = Object.values(this.named);
  }

  add(...row) {
    for (let place = 0; place < row.length; place++) this.columns[place].push(row[place]);
  }

  packed() {
    return Object.fromEntries(Object.entries(this.named).map(([name, column]) => [name, new Uint32Array(column)]));
  }
}

class Lane { // one reader
  constructor(reader) {
    this.stood = new Table("firsts", "lasts", "states", "causes");
    this.said = new Table("edges", "lines", "days", "sods");
    this.told = new Table("told_edges", "told_lines");
    this.made = new Table("ends", "makers");
    this.lies = new Table("edges", "ports", "days", "sods");
    this.ports = Array.from({ length: MOST_PORTS }, () => new Table("firsts", "lasts", "states"));
    Object.assign(this, { reader, marks: [], places: Array(MOST_PORTS).fill(0), offs: [], stamps: [] });
  }

  take(view, at) { // what the module draws of it
    const of = (name) => get(view, at, LANE[name]), kind = of("kind"), edges = [of("first_edge"), of("last_edge")];
    if (kind === NUMBERS.LANE_STOOD) this.stood.add(...edges, STATE_OF_LOCK[of("state")], of("cause"));
    if (kind === NUMBERS.LANE_TOLD) this.ports[of("port")].add(...edges, of("state"));
    if (kind === NUMBERS.LANE_MARK) this.marks.push([edges[0], of("state")]);
  }

  make(edge, line) { // which line of the scenario asked for the edge
    const { ends, makers } = this.made.named;
    if (makers.at(-1) === line) ends[ends.length - 1] = edge; else this.made.add(edge, line);
  }

  state_of(port, edge) { // what it told; asked edge by edge
    const { places } = this, { lasts, states } = this.ports[port].named;
    while (lasts[places[port]] < edge) places[port]++;
    return states[places[port]];
  }

  tell(edge, line, view, at) { // in this line of the log, and which ports lied, by an entry
    this.told.add(edge, line);
    for (let port = 0; port < get(view, at, ENTRY.ports); port++) {
      const claim = at + ENTRY.told.at + port * TOLD.size + TOLD.claim.at;
      if (this.state_of(port, edge) === PORT.ANOTHER_SECOND) this.lies.add(edge, port, ...second_in(view, claim));
    }
  }

  drawn(has_ports) {
    const ports = this.ports.map((runs) => runs.packed()).filter(({ firsts }) => has_ports && firsts.length);
    const marks = this.marks.flatMap(([edge, mark]) => MARKS[mark].map(([before, what]) => [edge - before, what]));
    const rows = [this.stood, this.said, this.told, this.made].map((table) => table.packed());
    const { reader, offs, stamps } = this;
    return Object.assign({ reader, marks, ports, lies: this.lies.packed(), offs, stamps }, ...rows);
  }
}

// Gives lanes what entries alone have: lines of the log and of the scenario, and seconds. Answers those that ticked, in
// the order of their first ticks, and the first true second that is known, with its edge.
function take_entries(lanes, { view, items, count }, shown) {
  const ticked = [];
  let line = 0, due = null;
  for (let place = 0, at = items; place < count; place++, at += ENTRY.size) {
    const lane = lanes[get(view, at, ENTRY.reader)], edge = get(view, at, ENTRY.edge);
    if (edge === 1) ticked.push(lane);
    if (!due && get(view, at, ENTRY.has_truth)) due = [edge - 1, ...second_in(view, at + ENTRY.truth.at)];
    lane.make(edge, get(view, at, ENTRY.line) - 1);
    if (shown.all || get(view, at, ENTRY.announces)) {
      lane.said.add(edge, line++, get(view, at, ENTRY.day), get(view, at, ENTRY.sod));
    }
    if (shown.ports) lane.tell(edge, line++, view, at);
  }
  return [ticked, due];
}

// The true seconds where they do not just count on as days do: the first one, and those at leap seconds.
function dues_of(first, lanes) {
  const dues = [], marks = [...new Map(lanes.flatMap((lane) => lane.marks))];
  const add = (edge, day, sod) => {
    dues.push([edge, day, sod]);
    if (sod === WHOLE_DAY) dues.push([edge + 1, day + 1, 0]);
  };
  if (first) add(...first);
  for (const [edge, mark] of marks.sort(([one], [other]) => one - other)) {
    const [from, day, sod] = dues.at(-1), counted = day + Math.floor((sod + edge - from) / WHOLE_DAY);
    if (mark === NUMBERS.LANE_MARK_LEAP) add(edge, counted - 1, WHOLE_DAY);
    if (mark === NUMBERS.LANE_MARK_DELETED) add(edge, counted + 1, 0);
  }
  return dues;
}

// ---- the seconds and the stamps of devices

// Gives the lanes of devices what they told, with the lines of the log, by the true seconds at edges. Answers those that
// told something, in the order of the first of each.
function take_told(lanes, { view, items, count }, shown, clock) {
  const told = new Set();
  let line = 0;
  for (let place = 0, at = items; place < count; place++, at += DEVICE_ENTRY.size) {
    const of = (name) => get(view, at, DEVICE_ENTRY[name]), lane = lanes[of("device")], has = of("names") === 1;
    const bound = has ? of("bound_us") : null;
    told.add(lane);
    if (of("kind") === NUMBERS.DEVICE_STAMP) {
      lane.stamps.push(stamp_told([of("day"), of("sod")], of("offset_us"), of("instant_us"), bound, clock));
      line++;
    } else {
      lane.offs.push([of("edge"), of("behind_us") - of("before_us"), bound, ""]);
      if (shown.all || has) lane.said.add(of("edge"), line++, of("day"), of("sod"));
    }
  }
  return [...told];
}

// When an instant was, how far a second began off by its stamp, how far that may be, and what the stamp says.
function stamp_told(second, offset, instant, bound, clock) {
  const at = instant / 1e6, time = `${second_text(second).slice(11, 19)} + ${offset} us`;
  if (bound === null) return [at, null, null, "no stamp"];
  const about = [-2, -1, 0, 1].map((by) => Math.floor(at) + by);
  const edge = about.find((each) => each >= 0 && String(clock.at(each)) === String(second));
  const off = edge === undefined ? 1e6 : instant - 1e6 * edge - offset;
  if (Math.abs(off) >= 1e6) return [at, null, bound, `${time}, another second`];
  return [at, off, bound, `${time}, ${Math.abs(off)} us ${off > 0 ? "early" : "late"}`];
}

// ---- the whole picture

const NOTHING_DRAWN = {
  lanes: [], causes: [], first: 1, last: 1, broken: null, kind_of_verdict: NUMBERS.VERDICT_NONE, dues: [],
  has_devices: false,
};

// What has entries, readers or devices, of which lanes are told, and the true seconds.
function entered(lanes, entries, plant, shown) {
  if (!plant.devices) {
    const [ticked, first_due] = take_entries(lanes, entries, shown);
    return [ticked, dues_of(first_due, ticked)];
  }
  const dues = dues_of([0, ...start_of(plant)], lanes);
  return [take_told(lanes, entries, shown, clock_of(dues)), dues];
}

// What is drawn, by the entries of a run and what the module draws; and where the premises broke, if they did.
function drawing_of(entries, { view, items, count, verdict }, { text, shown }) {
  const [kind, edge, reader] = ["kind", "edge", "reader"].map((name) => get(view, verdict, VERDICT[name]));
  const is_begun = entries.count > 0 || kind !== NUMBERS.VERDICT_NONE;
  const plant = is_begun ? plant_in(text) : { readers: [] }, names = names_of(plant);
  const lanes = names.map((name) => new Lane(name));
  for (let place = 0, at = items; place < count; place++, at += LANE.size) {
    lanes[get(view, at, LANE.reader)].take(view, at);
  }
  const [entering, dues] = entered(lanes, entries, plant, shown);
  const drawn = entering.map((lane) => lane.drawn(shown.ports || plant.devices));
  const broken = kind === NUMBERS.VERDICT_BROKEN ? { edge, reader: names[reader] } : null;
  const place = broken ? entering.indexOf(lanes[reader]) : -1;
  if (place >= 0) drawn[place].marks.push([edge, "premise broken"]);
  const ends = drawn.flatMap(({ lasts, stamps }) => [lasts.at(-1) || 0, ...stamps.map(([at]) => Math.floor(at))]);
  const last = ends.reduce((most, end) => Math.max(most, end), 1);
  const has_devices = Boolean(plant.devices);
  return { lanes: drawn, causes: CAUSES, first: 1, last, broken, kind_of_verdict: kind, dues, has_devices };
}

// ---- the messages

// How the runs in numbers ended, and what is drawn of them. Their memories are let go before the log is written.
function numbers_told(asked, expected, on_growth, on_end) {
  const of_readers = run_of(asked, ENTRIES, room_for(expected, ENTRY, asked), on_growth);
  const has_devices = of_readers.refusal && of_readers.refusal.number === OTHER_VERSION;
  const of_devices = has_devices ? run_of(asked, DEVICES, room_for(expected, DEVICE_ENTRY, asked), on_growth) : null;
  const is_told = of_devices && !(of_devices.refusal && of_devices.refusal.number === OTHER_VERSION);
  const entries = is_told ? of_devices : of_readers, { count } = entries;
  on_end(count);
  const lanes = has_ended(entries) ? run_of(asked, LANES, room_for(count, LANE, asked)) : entries;
  const { status, refusal } = lanes, drawing = has_ended(lanes) ? drawing_of(entries, lanes, asked) : NOTHING_DRAWN;
  return { ended: { status, refusal, memory: entries.view.buffer.byteLength }, count, drawing };
}

// What the page is given at the end, with how long the run took in milliseconds.
function told_of(asked, tell) {
  const expected = entries_in(asked.text), begun_at = performance.now();
  let largest = SPARE, spent = 0;
  const on_growth = (bytes) => {
    if (bytes <= largest) return;
    largest = bytes;
    const written = Math.floor(bytes / 2 / ENTRY.size);
    tell({ kind: "progress", spent: performance.now() - begun_at, written, expected });
  };
  const on_end = (count) => {
    spent = performance.now() - begun_at;
    tell({ kind: "progress", spent, written: count, expected: count, is_read: true });
  };
  const { ended, count, drawing } = numbers_told(asked, expected, on_growth, on_end);
  const said = has_ended(ended) ? log_of(asked, count) : { status: ended.status, log: new Uint8Array(0) };
  const starts = starts_of(said.log), is_whole = has_ended(said);
  const verdict = is_whole ? text_of_line(said.log, starts, starts.length - 2) : null;
  const { refusal } = is_whole ? said : ended;
  const told = { ...ended, ...said, refusal, starts, verdict, spent };
  return { kind: "done", ...told, ...(is_whole ? drawing : NOTHING_DRAWN) };
}

function buffers_of(part) { // of all arrays of numbers in it, which go over without a copy
  if (ArrayBuffer.isView(part)) return [part.buffer];
  return part && typeof part === "object" ? Object.values(part).flatMap(buffers_of) : [];
}

function on_message({ data }) {
  try {
    const result = told_of(data, (message) => postMessage(message));
    postMessage(result, buffers_of(result));
  } catch (error) {
    const is_trap = error instanceof WebAssembly.RuntimeError;
    postMessage({ kind: "failed", is_trap, reason: String(error.message) });
  }
}

if (typeof WorkerGlobalScope !== "undefined") self.onmessage = on_message;
