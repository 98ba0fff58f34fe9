// ---- a run: a scenario from the editor to a worker, and its log from there

const MEMORIES = [[64, "64 MiB"], [256, "256 MiB"], [1024, "1 GiB"], [3072, "3 GiB"]], USUAL_MEMORY = 1024;
const ENDS = { // how a run of each status ended
  [RUN_DONE]: "done", [RUN_REFUSED]: "a line is refused", [RUN_NO_LOG]: "no memory for the log",
  [RUN_NO_MEMORY]: "no memory for the run",
};
const MEGABYTE = 1 << 20, MOST_OF_LINK = 64 * MEGABYTE; // bytes of a scenario that a link may grow to

class Runner { // one worker at a time
  constructor(module, on_message) {
    Object.assign(this, { module, on_message, worker: null });
    this.source = URL.createObjectURL(new Blob([part("worker").textContent], { type: "text/javascript" }));
  }

  start(text, shown, most) {
    this.stop();
    const worker = this.worker = new Worker(this.source);
    const fail = (reason) => this.take(worker, { kind: "failed", reason });
    worker.onmessage = (event) => this.take(worker, event.data);
    worker.onerror = (event) => fail(event.message || "the worker ended");
    worker.onmessageerror = () => fail("the worker's answer could not be read");
    const asked = { text: new TextEncoder().encode(text), shown, most: most * MEGABYTE };
    this.module.then((module) => worker.postMessage({ module, ...asked }), (error) => fail(error.message));
  }

  take(worker, message) { // what a worker says, unless it was stopped
    if (worker !== this.worker) return;
    if (message.kind !== "progress") this.stop();
    this.on_message(message);
  }

  stop() {
    if (this.worker) this.worker.terminate();
    this.worker = null;
  }
}

const text_of = (bytes) => new TextDecoder("utf-8", { fatal: true, ignoreBOM: true }).decode(bytes);
const bytes_in = (base64) => Uint8Array.from(atob(base64), (letter) => letter.charCodeAt(0));
const compiled = (name) => WebAssembly.compile(bytes_in(data.modules[name]));

// ---- links: a scenario, packed, behind the sign # of the address

async function piped(bytes, stream) { // through a stream that packs or unpacks
  const reader = new Blob([bytes]).stream().pipeThrough(stream).getReader();
  const parts = [];
  let size = 0;
  for (let part = await reader.read(); !part.done; part = await reader.read()) {
    parts.push(part.value);
    size += part.value.length;
    if (size > MOST_OF_LINK) throw new RangeError("the scenario of this link is too long");
  }
  return new Uint8Array(await new Blob(parts).arrayBuffer());
}

async function packed(text) {
  const bytes = await piped(new TextEncoder().encode(text), new CompressionStream("deflate-raw"));
  let letters = "";
  for (const byte of bytes) letters += String.fromCharCode(byte);
  return btoa(letters).replaceAll("+", "-").replaceAll("/", "_").replaceAll("=", "");
}

async function unpacked(letters) {
  const bytes = bytes_in(letters.replaceAll("-", "+").replaceAll("_", "/"));
  return text_of(await piped(bytes, new DecompressionStream("deflate-raw")));
}

// ---- the tab

class ScenarioTab {
  constructor(module) {
    this.runner = new Runner(module, (message) => this.on_message(message));
    this.editor = new Editor(() => this.on_change());
    this.timeline = new Timeline((lane, edge, from) => this.on_choice(lane, edge, from));
    this.log = new List(part("log"), (number) => this.on_line(number));
    this.log.set(NO_LOG);
    Object.assign(this, { ran: [], begun: 0, timer: 0, progress: null, searched: [], has_run: false });
    this.add_choices();
    this.listen();
  }

  add_choices() {
    add_option(part("example"), "", "your own");
    for (const { name } of data.examples) add_option(part("example"), name, name);
    for (const [size, text] of MEMORIES) add_option(part("most"), String(size), text);
    part("most").value = String(USUAL_MEMORY);
  }

  // ---- the scenario

  choose_example(name) {
    const example = data.examples.find((each) => each.name === name);
    part("example").value = example ? name : "";
    part("look").replaceChildren();
    if (!example) return;
    part("look").append(`${example.happens[0].toUpperCase()}${example.happens.slice(1)}. `);
    add(part("look"), "strong", "Look at ");
    part("look").append(`${example.look}.`);
    this.set_text(example.text);
  }

  run_example(name) { // on opening; what a link brings waits until Run is pressed
    this.choose_example(name);
    this.run();
  }

  set_text(text) {
    this.editor.set(text);
    this.tell_text();
    this.explain("");
    this.set_stale(this.has_run);
  }

  on_change() { // by the hand of the user
    part("example").value = "";
    part("look").replaceChildren();
    this.tell_text();
    this.explain("");
    this.set_stale(this.has_run);
  }

  tell_text() {
    this.tell_size();
    show_plant(this.editor.line(0));
  }

  tell_size() {
    const { count } = this.editor;
    const told = `${count.toLocaleString("en")} line${count === 1 ? "" : "s"}`;
    part("size").textContent = this.editor.held === null ? told : `${told}, not to be edited here`;
  }

  set_stale(is_stale) { part("stale").hidden = !is_stale; }

  explain(text) { part("explanation").textContent = text; }

  // ---- the run

  run() {
    const text = this.editor.text;
    this.begun = performance.now();
    this.progress = null;
    this.running = { text, all: part("all").checked, ports: part("ports").checked };
    this.explain("");
    this.editor.mark(-1);
    this.show_running(true);
    this.timer = setInterval(() => this.tell_progress(), 250);
    part("state").textContent = "running";
    const { all, ports } = this.running;
    this.runner.start(text, { all, ports }, Number(part("most").value));
  }

  stop() {
    this.runner.stop();
    this.show_running(false);
    const told = `stopped after ${seconds(performance.now() - this.begun)}`;
    part("state").textContent = this.has_run ? `${told}; the log is that of the run before` : told;
  }

  show_running(is_running) {
    clearInterval(this.timer);
    part("pace").textContent = "";
    part("run").disabled = is_running;
    part("stop").disabled = !is_running;
    part("progress").hidden = !is_running;
    part("progress").removeAttribute("value");
    if (is_running && document.activeElement === part("run")) part("stop").focus();
    if (!is_running && document.activeElement === part("stop")) part("run").focus();
  }

  // The log tells how far it is when it doubles its memory; between, the same speed is supposed.
  tell_progress() {
    const now = performance.now() - this.begun, { progress } = this;
    let told = `for ${seconds(now)}`;
    if (progress && progress.is_read) {
      part("progress").value = 1;
      told += `, writing the log of ${progress.expected.toLocaleString("en")} ticks`;
    } else if (progress) {
      const written = Math.min(progress.written * Math.min(now / progress.spent, 2), progress.expected);
      part("progress").value = Math.min(0.99, written / progress.expected);
      const [done, all] = [written, progress.expected].map((ticks) => Math.floor(ticks).toLocaleString("en"));
      told += `, about ${done} of ${all} ticks`;
    }
    part("pace").textContent = told;
  }

  on_message(message) {
    if (message.kind === "progress") {
      this.progress = message;
      return;
    }
    this.show_running(false);
    if (message.kind === "failed") {
      const what = message.is_trap ? "the module stopped itself" : "the run could not end";
      part("state").textContent = `${what}: ${message.reason}. Run begins anew.`;
      return;
    }
    this.show_result(message);
  }

  // ---- what a run gave

  show_result(result) {
    const log = new LogText(result.log, result.starts), { status } = result;
    this.ran = this.running.text.split("\n");
    this.clock = clock_of(result.dues);
    this.has_run = true;
    this.set_stale(this.running.text !== this.editor.text);
    this.log.set(log);
    this.search();
    part("save").disabled = !log.length;
    part("result").hidden = false;
    part("drawing").hidden = part("range").hidden = !result.lanes.length;
    this.timeline.set(result, (lane, edge) => this.told_of(lane, edge), this.clock);
    if (result.lanes.length) this.timeline.choose(this.timeline.lanes[0], result.first);
    this.show_verdict(result);
    const lines = `${log.length.toLocaleString("en")} line${log.length === 1 ? "" : "s"}`;
    const cost = `${seconds(result.spent)}, ${bytes_text(result.memory)} of memory`;
    part("state").textContent = `${ENDS[status] || `status ${status}`}: ${lines} of log in ${cost}`;
  }

  show_verdict({ verdict, kind_of_verdict, broken, refusal, has_devices }) {
    const is_cut = verdict === null, is_kept = kind_of_verdict === NUMBERS.VERDICT_KEPT;
    part("verdict").textContent = `${is_kept ? "\u2713" : "\u2717"} ${is_cut ? "memory ran out" : verdict}`;
    part("meaning").textContent = is_cut
      ? "The log shows how it begins, as far as there was memory. Allow more, or make the scenario shorter."
      : data[has_devices ? "verdicts_of_devices" : "verdicts"][kind_of_verdict].replace(/\bN\b/, (refusal && refusal.line) || (broken && broken.edge));
    part("to-verdict").hidden = true;
    if (broken) this.lead_to_edge(broken);
    if (refusal) this.show_refusal(refusal);
  }

  lead_to_edge({ reader, edge }) {
    const lane = this.timeline.lanes.find((each) => each.reader === reader);
    if (lane) this.lead(`go to edge ${edge}`, () => this.timeline.choose(lane, edge));
  }

  show_refusal({ line, number, reason }) {
    this.lead(`go to line ${line}`, () => this.editor.go_to(line - 1));
    if (this.running.text !== this.editor.text) return;
    this.editor.mark(line - 1);
    this.editor.show(line - 1);
    const { name, cause, example, cure } = data.numbers[number];
    const told = [`Line ${line} is refused, ${number} ${name}: ${reason || cause}`, `For example: ${example}`];
    this.explain([...told, `What to do: ${cure}`].join("\n"));
  }

  lead(text, go_there) {
    part("to-verdict").textContent = text;
    part("to-verdict").hidden = false;
    part("to-verdict").onclick = go_there;
  }

  told_of(lane, edge) {
    const says = () => {
      const run = first_after(lane.lasts, edge), cause = this.timeline.causes[lane.causes[run]];
      const [meaning, look] = data.causes[cause];
      return [meaning + (look ? ` (${look})` : "")];
    };
    const log = (number) => this.log.lines.at(number), scenario = (number) => this.ran[number];
    return lines_of_edge(lane, edge, { clock: this.clock, log, scenario, ports: "ports told:", says });
  }

  on_choice(lane, edge, from) {
    const maker = lane.maker_of(edge);
    const line = lane.line_at(edge);
    if (from !== this.log) this.log.show(line < 0 ? lane.told_at(edge) : line);
    if (maker >= 0 && this.running.text === this.editor.text) this.editor.show(maker);
  }

  on_line(number) {
    const lane = this.timeline.lane_of_line(number);
    if (lane) this.timeline.choose(lane, lane.edge_of(number), this.log);
  }

  // ---- the search

  search() {
    const wanted = part("search").value;
    this.searched = this.log.lines.lines_with(wanted);
    this.log.mark(this.searched);
    const count = this.searched.length.toLocaleString("en");
    part("searched").textContent = wanted ? `${count} line${count === "1" ? "" : "s"}` : "";
  }

  go_to_found(step) { // the next line found below the chosen one, or above it
    const { searched } = this, count = searched.length;
    if (!count) return;
    const here = first_after(searched, this.log.chosen + (step > 0 ? 1 : 0));
    const place = (here + (step > 0 ? 0 : -1) + count) % count;
    this.log.pick(searched[place]);
    part("searched").textContent = `${(place + 1).toLocaleString("en")} of ${count.toLocaleString("en")}`;
  }

  // ---- files and links

  async open_file(file) { // byte for byte
    if (!file) return;
    try {
      const text = text_of(await file.arrayBuffer());
      this.choose_example("");
      this.set_text(text);
      part("state").textContent = "";
    } catch {
      part("state").textContent = `${file.name} can't be read as text in UTF-8: its lines would be refused`;
    }
  }

  on_drop(event) {
    if (!event.dataTransfer.types.includes("Files")) return;
    event.preventDefault();
    if (event.type === "drop") this.open_file(event.dataTransfer.files[0]);
  }

  save_log() {
    const link = document.createElement("a");
    link.href = URL.createObjectURL(new Blob([this.log.lines.bytes], { type: "text/plain" }));
    link.download = "irig.log";
    link.click();
    setTimeout(() => URL.revokeObjectURL(link.href), 10000);
  }

  async make_link() {
    try {
      location.hash = `scenario=${await packed(this.editor.text)}`;
    } catch (error) {
      part("state").textContent = `no link can be made here: ${error.message}`;
      return;
    }
    part("link-row").hidden = false;
    part("link-text").value = location.href;
    part("link-text").focus();
    part("link-text").select();
  }

  async take_link() { // the scenario that the address carries; nothing runs until Run is pressed
    const [, letters] = /^#scenario=([\w-]+)$/.exec(location.hash) || [];
    if (!letters) return false;
    try {
      const text = await unpacked(letters);
      if (text === this.editor.text) return true;
      this.choose_example("");
      this.set_text(text);
    } catch {
      part("state").textContent = "the link is damaged: it has no scenario that can be read";
    }
    return true;
  }

  listen() {
    part("run-controls").addEventListener("submit", (event) => {
      event.preventDefault();
      this.run();
    });
    document.addEventListener("keydown", (event) => {
      const is_wanted = event.key === "Enter" && (event.ctrlKey || event.metaKey);
      if (is_wanted && !part("panel-run").hidden && !part("run").disabled) this.run();
    });
    part("stop").addEventListener("click", () => this.stop());
    part("example").addEventListener("change", () => this.choose_example(part("example").value));
    part("file").addEventListener("change", () => this.open_file(part("file").files[0]));
    for (const kind of ["dragover", "drop"]) document.addEventListener(kind, (event) => this.on_drop(event));
    part("save").addEventListener("click", () => this.save_log());
    part("link").addEventListener("click", () => this.make_link());
    part("search").addEventListener("input", () => this.search());
    part("search").addEventListener("keydown", (event) => {
      if (event.key === "Enter") this.go_to_found(event.shiftKey ? -1 : 1);
    });
    part("search-next").addEventListener("click", () => this.go_to_found(1));
    part("search-previous").addEventListener("click", () => this.go_to_found(-1));
    window.addEventListener("hashchange", () => this.take_link());
  }
}

// ---- the plant line, key by key, since it is long

const LONGEST_PLANT = 20000; // letters; a longer line is not folded

function show_plant(line) { // nothing of a line that is no object
  part("plant").replaceChildren();
  const plant = line.length <= LONGEST_PLANT ? object_of(line) : null;
  part("plant").hidden = !plant;
  for (const [key, value] of Object.entries(plant || {})) {
    add(part("plant"), "dt", key);
    const cell = add(part("plant"), "dd");
    const items = Array.isArray(value) ? value : [value];
    for (const item of items) add(cell, "span", said_of(item));
    if (!items.length) add(cell, "span", "none");
  }
}

function object_of(line) {
  try {
    const value = JSON.parse(line);
    return value && typeof value === "object" && !Array.isArray(value) ? value : null;
  } catch {
    return null;
  }
}

function said_of(value) { // as: name relay, lock_after 2
  if (Array.isArray(value)) return value.length ? value.map(said_of).join("; ") : "none";
  if (value === null || typeof value !== "object") return String(value);
  const parts = Object.entries(value).map(([key, item]) => `${key} ${said_of(item)}`);
  return parts.join(", ");
}

const seconds = (milliseconds) =>
  (milliseconds < 1000 ? `${Math.round(milliseconds)} ms` : `${(milliseconds / 1000).toFixed(1)} s`);

function bytes_text(bytes) {
  return bytes < MEGABYTE ? `${Math.ceil(bytes / 1024)} KiB` : `${Math.round(bytes / MEGABYTE)} MiB`;
}
