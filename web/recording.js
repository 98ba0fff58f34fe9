// ---- recordings: a worker runs the program, which judges what was opened

const JUDGED = {
  0: "judged", 2: "the lines or the zone are not understood", 3: "refused", 4: "it can't be read", 6: "out of memory",
  7: "undecided",
};

// What is judged of some files: all but the samples of records, which the program finds by their names.
const recordings_in = (files) => files.filter(({ name }) => !/\.dat$/i.test(name));

// The files that are read for one of them.
const stem_of = (name) => name.replace(/\.[^.]*$/, "").toLowerCase();
const read_for = (recording, files) => files.filter((file) =>
  file === recording || (/\.dat$/i.test(file.name) && stem_of(file.name) === stem_of(recording.name)));

class RecordingTab {
  constructor(module) {
    Object.assign(this, { module, files: [], worker: null, run: 0 });
    this.source = URL.createObjectURL(new Blob([part("recorder").textContent], { type: "text/javascript" }));
    part("recording").addEventListener("change", ({ target }) => {
      this.take([...target.files]);
      target.value = ""; // so that the same file may be opened again
    });
    for (const name of ["channels", "stamp-zone"])
      part(name).addEventListener("input", () => this.tell("changed since: press Judge"));
    part("recording-stop").addEventListener("click", () => this.stop("stopped"));
    part("recording-controls").addEventListener("submit", (event) => {
      event.preventDefault();
      this.judge();
    });
    const panel = part("panel-judge");
    panel.addEventListener("dragover", (event) => event.preventDefault());
    panel.addEventListener("drop", (event) => {
      event.preventDefault();
      this.take([...event.dataTransfer.files]);
    });
  }

  take(files) {
    this.files = files;
    return this.judge();
  }

  // Behind -- a name may begin with a -.
  words_of(name) {
    const asked = [["channels", part("channels").value], ["zone", part("stamp-zone").value]];
    const options = asked.filter(([, value]) => value.trim()).map(([key, value]) => `--${key}=${value.trim()}`);
    return ["irig", "judge", ...options, "--", name];
  }

  // Judges what was opened, one recording after another.
  async judge() {
    this.stop("");
    const run = ++this.run, recordings = recordings_in(this.files);
    part("judged").replaceChildren();
    if (!this.files.length) return;
    if (!recordings.length) this.tell("these are samples: open the .cfg of the record together with them");
    const begun = performance.now(), ends = [];
    for (const recording of recordings) {
      const files = new Map(read_for(recording, this.files).map((file) => [file.name, file]));
      const answer = await this.ended(this.words_of(recording.name), files);
      if (run !== this.run) return;
      this.show(recording.name, answer, recordings.length > 1);
      ends.push(JUDGED[answer.status] ?? answer.told);
      this.tell(`${[...new Set(ends)].join(", ")}, in ${((performance.now() - begun) / 1000).toFixed(2)} s`);
    }
  }

  // What the program says, of files by their names: its status and both texts.
  ended(words, files) {
    const total = [...files.values()].reduce((sum, { size }) => sum + size, 0) || 1;
    let read = 0;
    return new Promise((end) => {
      const worker = this.worker = new Worker(this.source);
      const take = (answer) => {
        worker.terminate();
        this.set_running(false);
        end(answer);
      };
      worker.onerror = ({ message }) => take({ status: -1, output: "", told: message || "the worker ended" });
      worker.onmessage = ({ data: answer }) => {
        if (answer.read === undefined) return take(answer);
        read += answer.read;
        part("recording-progress").value = read / total;
      };
      this.set_running(true);
      this.module.then((module) => worker.postMessage({ module, words, files }));
    });
  }

  show(name, { output, told }, is_one_of_many) {
    if (is_one_of_many) add(part("judged"), "h2", name);
    add(part("judged"), "pre", output || told);
  }

  set_running(is_running) {
    part("recording-stop").disabled = !is_running;
    part("recording-progress").hidden = !is_running;
    part("recording-progress").value = 0;
  }

  tell(text) { part("recording-state").textContent = text; }

  stop(text) {
    this.run++;
    if (this.worker) this.worker.terminate();
    this.worker = null;
    this.set_running(false);
    this.tell(text);
  }
}
