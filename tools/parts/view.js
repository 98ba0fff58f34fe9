// ---- the page of one scenario and its log. `data` has the lines of both, and what is drawn of them (tools/view).

class Lines {
  constructor(texts) { Object.assign(this, { texts, length: texts.length }); }

  at(number) { return this.texts[number]; }
}

const timeline = new Timeline(on_choice);
const log = new List(part("log"), on_line);
const scenario = new List(part("scenario"), on_scenario_line);
const reading = data.drawn, clock = clock_of(reading.dues);

const lane_named = (reader) => timeline.lanes.find((lane) => lane.reader === reader);

const told_of = (lane, edge) => lines_of_edge(lane, edge, {
  clock, log: (number) => data.log[number], scenario: (number) => data.scenario[number], ports: "ports:",
});

function on_choice(lane, edge, from) { // the lists follow, but for one that leads
  if (from !== log) log.show(lane.line_at(edge));
  if (from !== scenario) scenario.show(lane.maker_of(edge));
}

function on_line(number) {
  const lane = timeline.lane_of_line(number);
  if (lane) {
    timeline.choose(lane, lane.edge_of(number), log);
  } else {
    part("line").textContent = data.log[number];
  }
}

function on_scenario_line(number) { // the first edge that the line made
  for (const lane of timeline.lanes) {
    const place = first_after(lane.makers, number);
    if (lane.makers[place] === number) {
      return timeline.choose(lane, (lane.ends[place - 1] || 0) + 1, scenario);
    }
  }
  part("line").textContent = `scenario line ${number + 1} gives no reader an edge`;
}

function go_to_text() { // the next line of the log with this text, below the chosen one
  const text = part("text").value, count = data.log.length;
  if (!text) return;
  for (let step = 1; step <= count; step++) {
    const number = (Math.max(log.chosen, -1) + step) % count;
    if (data.log[number].includes(text)) return log.pick(number);
  }
  part("line").textContent = `no line has ${text}`;
}

// ---- the last line of the log

function add_verdict() {
  const { verdict, broken, refused } = reading, lane = broken && lane_named(broken.reader);
  const sign = verdict === "premises kept" ? "\u2713" : "\u2717";
  part("verdict").textContent = `${sign} ${verdict}`;
  if (lane) {
    to_verdict(`go to edge ${broken.edge}`, () => timeline.choose(lane, broken.edge));
  } else if (refused) {
    scenario.refused = refused - 1;
    scenario.draw();
    to_verdict(`go to line ${refused}`, () => scenario.pick(scenario.refused));
  }
}

function to_verdict(text, go_there) {
  part("to-verdict").textContent = text;
  part("to-verdict").hidden = false;
  part("to-verdict").addEventListener("click", go_there);
}

// ---- how the page begins

part("text").addEventListener("keydown", (event) => { if (event.key === "Enter") go_to_text(); });
log.set(new Lines(data.log));
scenario.set(new Lines(data.scenario));
timeline.set(reading, told_of, clock);
add_verdict();
if (reading.lanes.length) {
  timeline.choose(timeline.lanes[0], reading.first);
  part("canvas").focus({ preventScroll: true }); // so that keys work at once
} else {
  for (const id of ["stage", "axis", "find-controls", "legend", "keys", "range"]) part(id).hidden = true;
}
