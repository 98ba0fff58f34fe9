// ---- the timeline: how each reader stood at each edge, and below it what each of its ports told, by the
// bars, marks and patterns of tools/plot

const LANE = 46, HIGH = 24, LOW = 11, TOP = 14, AXIS = 26, UTC_ROW = 14; // the axis, and its rows for UTC
const PORT_LANE = 11, PORT_HIGH = 9, PORT_LOW = 5, BELOW_PORTS = 4; // a thin lane a port
const OFF_HIGH = 44, BELOW_OFFS = 8, BAND = "#56B4E959", BEYOND = "#D55E00"; // how far a device lay off, and may
const NARROW = 2, PLAIN = 5; // the least width of a silence; less wide bars have no pattern
const FEWEST = 4; // edges on the screen at the nearest zoom
const LEAST_LIE = 3; // no lie is less wide
const FONT = "13px system-ui, sans-serif", SMALL_FONT = "9px system-ui, sans-serif", RIGHT = 12;
const STATES = STATE_NAMES.map((name) => ({ name, ...data.states[name] }));
const PORT_STATES = PORT_KINDS.map((name) => ({ name, ...data.port_states[name] }));
const LEASTS = STATES.map((state) => (state.is_high ? 1 : NARROW));
const PORT_LEASTS = PORT_STATES.map((state) => (state.is_high ? LEAST_LIE : NARROW));
const TILES = { // the lines of a pattern
  stripes: [[-2, 2, 2, -2], [-2, 10, 10, -2], [6, 10, 10, 6]],
  upright: [[2, 0, 2, 8], [6, 0, 6, 8]],
  crosses: [[0, 0, 8, 8], [0, 8, 8, 0]],
};

class LaneOfEdges { // a lane, and which line tells of an edge
  constructor(lane, top) {
    Object.assign(this, { ...lane, top });
    const { length } = this.ports;
    this.below_ports = LANE + (length ? length * PORT_LANE + BELOW_PORTS : 0);
    const sizes = [...this.offs, ...this.stamps].flatMap(([, off, bound]) => [Math.abs(off || 0), bound || 0]);
    this.most_off = sizes.reduce((most, size) => Math.max(most, size), 10);
    this.height = this.below_ports + (sizes.length ? OFF_HIGH + BELOW_OFFS : 0);
    this.begins = this.offs.map(([at]) => at);
  }

  stamps_at(edge) { // what was said of instants in the second of an edge
    const of_edge = this.stamps.filter(([at]) => Math.floor(at) === edge);
    return of_edge.map(([at, , , said]) => `@${at.toFixed(6)} ${said}`);
  }

  line_at(edge) {
    const place = first_after(this.edges, edge);
    return this.edges[place] === edge ? this.lines[place] : -1;
  }

  told_at(edge) { // the line that says what its ports told
    const place = first_after(this.told_edges, edge);
    return this.told_edges[place] === edge ? this.told_lines[place] : -1;
  }

  seconds_at(edge) { // what its line announces, with the place of the word
    const place = first_after(this.edges, edge);
    return this.edges[place] === edge && this.days[place] ? [[2, [this.days[place], this.sods[place]]]] : [];
  }

  lies_at(edge) { // the other seconds that its ports told, so, too
    const { edges, ports, days, sods } = this.lies, found = [];
    for (let row = first_after(edges, edge); edges[row] === edge; row++) {
      found.push([3 + ports[row], [days[row], sods[row]]]);
    }
    return found;
  }

  edge_of(line) {
    for (const [lines, edges] of [[this.lines, this.edges], [this.told_lines, this.told_edges]]) {
      const place = first_after(lines, line);
      if (lines[place] === line) return edges[place];
    }
    return -1;
  }

  maker_of(edge) {
    const place = first_after(this.ends, edge);
    return place < this.makers.length ? this.makers[place] : -1;
  }
}

// What there is to say of an edge: its line of the log and what is said of that, what its ports told, and which second
// it is, with the scenario's line that asked for it; log and scenario tell a line by its number.
function lines_of_edge(lane, edge, { clock, log, scenario, ports, says = () => [] }) {
  const line = lane.line_at(edge), told = lane.told_at(edge), maker = lane.maker_of(edge), due = clock(edge);
  const none = `${edge} ${lane.reader}: not announced, no line in this log`;
  const lines = line < 0 ? [none] : [with_offsets(log(line), lane.seconds_at(edge), clock.at(edge)), ...says()];
  lines.push(...lane.stamps_at(edge));
  const words = told < 0 ? "" : with_offsets(log(told), lane.lies_at(edge), clock.at(edge - 1));
  if (words) lines.push(words.replace(` ${edge} ${lane.reader}`, ports));
  if (!lines[0].includes(due)) lines.push(`edge ${edge} is ${due}`);
  if (maker >= 0) lines.push(`scenario line ${maker + 1}: ${cut(scenario(maker), 120)}`);
  return lines.join("\n");
}

class Timeline {
  constructor(on_choice) {
    Object.assign(this, { on_choice, lanes: [], causes: [], found: [], lies: [] });
    Object.assign(this, { first: 1, last: 1, height: TOP, clock: () => "" });
    Object.assign(this, { canvas: part("canvas"), axis: part("axis"), colours: {}, gutter: 60, width: 0 });
    Object.assign(this, { is_waiting: false, dragged: null });
    this.brush = this.canvas.getContext("2d");
    this.ruler = this.axis.getContext("2d");
    this.view = { from: 0.5, to: 1.5 };
    this.cursor = { lane: null, edge: 1 };
    this.listen();
  }

  set({ lanes, causes, first, last }, told_of, clock) {
    let top = TOP;
    this.lanes = lanes.map((lane) => {
      const placed = new LaneOfEdges(lane, top);
      top += placed.height;
      return placed;
    });
    Object.assign(this, { causes, first, last, told_of, clock, height: top });
    this.view = { from: first - 0.5, to: last + 0.5 };
    this.cursor = { lane: this.lanes[0], edge: first };
    part("lie").hidden = !this.lanes.some(({ ports }) => ports.length);
    this.add_choices();
    this.add_legend();
    this.look();
    this.look_for();
  }

  lane_of_line(line) { return this.lanes.find((lane) => lane.edge_of(line) >= 0); }

  // ---- places, sizes and colours

  x_of(edge) { return this.gutter + (edge - this.view.from) / (this.view.to - this.view.from) * this.width; }
  edge_at(x) { return this.view.from + (x - this.gutter) / this.width * (this.view.to - this.view.from); }
  top_of(lane) { return lane.top; }

  lane_at(y) {
    const found = this.lanes.find(({ top, height }) => y < top + height - 10);
    return found || this.lanes[this.lanes.length - 1];
  }

  ground_of(lane) { return lane === this.cursor.lane ? this.colours.panel : this.colours.paper; }

  redraw() {
    if (!this.is_waiting) requestAnimationFrame(() => this.draw());
    this.is_waiting = true;
  }

  look() { // sizes and colours of the page as it now is
    if (!this.lanes.length || !this.canvas.clientWidth) return;
    const style = getComputedStyle(document.documentElement);
    for (const name of ["paper", "panel", "text", "faint", "rule"]) {
      this.colours[name] = style.getPropertyValue(`--${name}`).trim();
    }
    this.brush.font = FONT;
    const names = this.lanes.map((lane) => this.brush.measureText(lane.reader).width);
    this.gutter = Math.ceil(Math.max(30, ...names)) + 14;
    this.size(this.canvas, this.brush, this.height);
    this.size(this.axis, this.ruler, AXIS + (this.clock(this.first) ? 2 * UTC_ROW : 0));
    this.width = Math.max(10, this.canvas.clientWidth - this.gutter - RIGHT);
    for (const state of [...STATES, ...PORT_STATES]) state.brush = this.pattern_of(state);
    this.draw_legend();
    this.redraw();
  }

  size(element, pen, height) { // as many points as the screen has
    const scale = window.devicePixelRatio || 1;
    element.style.height = `${height}px`;
    element.width = Math.round(element.clientWidth * scale);
    element.height = Math.round(height * scale);
    pen.setTransform(scale, 0, 0, scale, 0, 0);
  }

  pattern_of({ colour, pattern }) {
    const tile = document.createElement("canvas"), pen = tile.getContext("2d");
    tile.width = tile.height = 8;
    pen.fillStyle = colour;
    pen.fillRect(0, 0, 8, 8);
    pen.strokeStyle = this.colours.paper;
    pen.lineWidth = 1.2;
    for (const [x, y, to_x, to_y] of TILES[pattern] || []) stroke(pen, [[x, y], [to_x, to_y]]);
    return this.brush.createPattern(tile, "repeat");
  }

  // ---- drawing

  draw() {
    this.is_waiting = false;
    const { brush, gutter, width, canvas } = this;
    if (!this.lanes.length) return;
    brush.clearRect(0, 0, canvas.width, canvas.height);
    for (const lane of this.lanes) {
      const foot = this.top_of(lane) + HIGH;
      this.box(0, foot - HIGH - 10, gutter + width + RIGHT, lane.height - 4, this.ground_of(lane));
      write(brush, lane.reader, gutter - 8, foot - HIGH / 2, "right", this.colours.text);
      lane.ports.forEach((_, port) => {
        const middle = this.foot_of(lane, port) - PORT_HIGH / 2 + 0.5;
        write(brush, String(port), gutter - 8, middle, "right", this.colours.faint, SMALL_FONT);
      });
      this.write_offs(lane);
    }
    brush.save();
    brush.beginPath();
    brush.rect(gutter, 0, width, canvas.height);
    brush.clip();
    for (const lane of this.lanes) {
      this.draw_bars(lane, this.top_of(lane) + HIGH);
      this.draw_ports(lane);
      this.draw_offs(lane);
      this.draw_marks(lane, this.top_of(lane) + HIGH);
    }
    this.draw_cursor();
    brush.restore();
    this.draw_axis();
    this.tell_range();
  }

  box(left, top, wide, high, style) {
    this.brush.fillStyle = style;
    this.brush.fillRect(left, top, wide, high);
  }

  // The boxes of the runs that are seen, for each state: narrow ones that touch on the screen are one.
  boxes_of({ firsts, lasts, states }, least) {
    const { view, gutter, width } = this;
    const boxes = least.map(() => []);
    const scale = width / (view.to - view.from), zero = gutter - view.from * scale;
    const most_left = gutter - 10, most_right = gutter + width + 10;
    for (let place = first_after(lasts, view.from); place < lasts.length; place++) {
      if (firsts[place] > view.to + 0.5) break;
      const state = states[place], found = boxes[state], above = found[found.length - 1];
      let left = Math.max(zero + (firsts[place] - 0.5) * scale, most_left);
      let right = Math.min(zero + (lasts[place] + 0.5) * scale, most_right);
      const is_narrow = right - left < PLAIN;
      if (is_narrow) { // whole points: what is narrow is not blurred
        left = Math.floor(left);
        right = Math.max(Math.ceil(right), left + least[state]);
      }
      if (above && left <= above[1] && is_narrow) {
        if (right > above[1]) above[1] = right;
      } else {
        found.push([left, right]);
      }
    }
    return boxes;
  }

  // High bars first, then low ones before an empty room: a silence is a gap, however short.
  draw_bars(lane, foot) {
    const boxes = this.boxes_of(lane, LEASTS), ground = this.ground_of(lane);
    STATES.forEach((state, place) => {
      const height = state.is_high ? HIGH : LOW;
      for (const [left, right] of boxes[place]) {
        const gap = right - left > PLAIN ? 1 : 0;
        if (!state.is_high) this.box(left, foot - HIGH, right - left, HIGH, ground);
        this.box(left, foot - height, right - left - gap, height, gap ? state.brush : state.colour);
      }
    });
    this.draw_found(lane, foot);
  }

  foot_of(lane, port) { return this.top_of(lane) + HIGH + 10 + port * PORT_LANE + PORT_HIGH; }

  // What each port told, lies last and as high as their lane: nothing hides them. A silence is a gap.
  draw_ports(lane) {
    const ground = this.ground_of(lane);
    lane.ports.forEach((runs, port) => {
      const foot = this.foot_of(lane, port), boxes = this.boxes_of(runs, PORT_LEASTS);
      PORT_STATES.forEach((state, kind) => {
        const high = state.is_high ? PORT_HIGH : PORT_LOW;
        for (const [left, right] of boxes[kind]) {
          const gap = right - left > PLAIN ? 1 : 0;
          if (kind !== PORT.AGREED) this.box(left, foot - high, right - left, high, ground);
          if (kind === PORT.SILENT) this.box(left, foot - 1, right - left, 1, this.colours.rule);
          else this.box(left, foot - high, right - left - gap, high, gap ? state.brush : state.colour);
        }
      });
    });
  }

  // ---- how far a device lay off: from each told edge on, in the band of its bound, and at stamps

  middle_of(lane) { return this.top_of(lane) - 14 + lane.below_ports + OFF_HIGH / 2; }
  height_at(lane, off) { return this.middle_of(lane) - off / lane.most_off * (OFF_HIGH / 2 - 2); }

  write_offs(lane) {
    if (lane.height === lane.below_ports) return;
    for (const [off, text] of [[lane.most_off, `+${lane.most_off} us`], [0, "0"], [-lane.most_off, `-${lane.most_off} us`]]) {
      write(this.brush, text, this.gutter - 8, this.height_at(lane, off), "right", this.colours.faint, SMALL_FONT);
    }
  }

  draw_offs(lane) {
    if (lane.height === lane.below_ports) return;
    const { begins, offs } = lane;
    this.box(this.gutter, this.middle_of(lane), this.width, 1, this.colours.rule);
    for (let place = Math.max(first_after(begins, this.view.from) - 1, 0); place < offs.length; place++) {
      if (begins[place] > this.view.to + 0.5) break;
      this.draw_off(lane, offs[place], Math.min(begins[place + 1] || Infinity, begins[place] + 1));
    }
    for (const stamp of lane.stamps) this.draw_stamp(lane, stamp);
  }

  draw_off(lane, [at, off, bound], end) {
    const left = this.x_of(at), wide = Math.max(this.x_of(end) - left, 1), is_told = bound !== null;
    const half = (bound || 0) / lane.most_off * (OFF_HIGH / 2 - 2);
    if (is_told) this.box(left, this.middle_of(lane) - half, wide, 2 * half, BAND);
    const colour = is_told ? this.colours.text : this.colours.faint;
    this.box(left, this.height_at(lane, off) - 1, wide, 2, is_told && Math.abs(off) > bound ? BEYOND : colour);
  }

  draw_stamp(lane, [at, off, bound]) { // a rhombus, hollow if no stamp was given
    const x = this.x_of(at), y = this.height_at(lane, off || 0), { brush, colours } = this;
    const is_beyond = bound !== null && (off === null || Math.abs(off) > bound);
    brush.strokeStyle = is_beyond ? BEYOND : colours.text;
    const corners = [[x - 4, y], [x, y - 4], [x + 4, y], [x, y + 4], [x - 4, y]];
    stroke(brush, corners, bound === null ? colours.paper : brush.strokeStyle);
  }

  draw_found(lane, foot) { // a line below the runs of the cause that is looked for
    const cause = this.causes.indexOf(part("cause").value);
    if (cause < 0) return;
    let shown = -1;
    for (let place = first_after(lane.lasts, this.view.from); place < lane.lasts.length; place++) {
      if (lane.firsts[place] > this.view.to + 0.5) break;
      if (lane.causes[place] !== cause) continue;
      const left = this.x_of(lane.firsts[place] - 0.5);
      const right = Math.max(this.x_of(lane.lasts[place] + 0.5), left + 3);
      if (right <= shown) continue;
      this.box(left, foot + 3, right - left, 3, this.colours.text);
      shown = right;
    }
  }

  draw_marks(lane, foot) {
    const { brush, colours } = this;
    for (const [at, kind] of lane.marks) {
      const x = this.x_of(at), top = foot - HIGH;
      brush.fillStyle = brush.strokeStyle = colours.text;
      if (kind === "month end") {
        this.box(x - 2, top - 8, 4, HIGH + 11, this.ground_of(lane));
        brush.setLineDash([4, 3]);
        stroke(brush, [[x, top - 8], [x, foot + 3]]);
        brush.setLineDash([]);
      } else if (kind === "premise broken") {
        brush.lineWidth = 3;
        stroke(brush, [[x - 4, top - 10], [x + 4, top - 2]]);
        stroke(brush, [[x + 4, top - 10], [x - 4, top - 2]]);
        brush.lineWidth = 1;
      } else {
        const corners = [[x - 5, top - 10], [x + 5, top - 10], [x, top - 1], [x - 5, top - 10]];
        stroke(brush, corners, kind === "deleted second" ? colours.paper : colours.text);
      }
    }
  }

  draw_cursor() { // a frame around the chosen edge, and what its ports told
    const { brush, cursor } = this, { length } = cursor.lane.ports;
    const left = this.x_of(cursor.edge - 0.5), right = Math.max(this.x_of(cursor.edge + 0.5), left + 5);
    const top = this.top_of(cursor.lane) - 4;
    brush.lineWidth = 2;
    brush.strokeStyle = this.colours.text;
    const high = length ? this.foot_of(cursor.lane, length - 1) + 2 - top : HIGH + 8;
    brush.strokeRect(left - (right - left === 5 ? 2 : 0), top, right - left, high);
    brush.lineWidth = 1;
  }

  draw_axis() {
    const { view, ruler, gutter, width } = this, edges = view.to - view.from, end = gutter + width;
    const steps = [1, 2, 5].flatMap((step) => [...Array(20).keys()].map((power) => step * 10 ** power));
    const step = Math.min(...steps.filter((each) => each / edges * width >= 80));
    let day = "";
    ruler.font = FONT;
    ruler.clearRect(0, 0, this.axis.width, this.axis.height);
    ruler.strokeStyle = this.colours.faint;
    stroke(ruler, [[gutter, 0.5], [end, 0.5]]);
    for (let edge = Math.ceil(view.from / step) * step; edge <= view.to; edge += step) {
      const x = this.x_of(edge), utc = this.clock(edge), date = utc.slice(0, 10);
      stroke(ruler, [[x, 0], [x, 5]]);
      [String(edge), utc.slice(11, 19), date === day ? "" : date].forEach((text, row) => {
        const half = ruler.measureText(text).width / 2, middle = clamp(x, gutter + half, end + RIGHT - half);
        write(ruler, text, middle, 15 + row * UTC_ROW, "center", this.colours.text);
      });
      day = date;
    }
    write(ruler, "edge", gutter - 8, 15, "right", this.colours.faint);
    if (day) write(ruler, "UTC", gutter - 8, 15 + UTC_ROW, "right", this.colours.faint);
  }

  tell_range() {
    const from = Math.max(this.first, Math.ceil(this.view.from));
    const to = Math.min(this.last, Math.floor(this.view.to));
    const times = this.clock(from) ? `, ${this.clock(from)} to ${this.clock(to)}` : "";
    part("range").textContent = `edges ${from} to ${to} of ${this.first} to ${this.last}${times}`;
  }

  // ---- choices, and what the bars mean

  add_choices() {
    const counts = new Map();
    for (const { causes } of this.lanes) {
      for (const cause of causes) counts.set(cause, (counts.get(cause) || 0) + 1);
    }
    for (const id of ["cause", "reader"]) part(id).replaceChildren();
    add_option(part("cause"), "", "each silence");
    for (const [cause, count] of [...counts].sort(([one], [other]) => one - other)) {
      add_option(part("cause"), this.causes[cause], `${this.causes[cause]} (${count})`);
    }
    add_option(part("reader"), "", "all");
    for (const { reader } of this.lanes) add_option(part("reader"), reader, reader);
  }

  add_legend() {
    part("legend").replaceChildren();
    const add_states = (states, all_runs, name_of) => states.forEach((state, place) => {
      state.sample = null;
      if (!all_runs.some((runs) => runs.states.includes(place))) return;
      const item = add(part("legend"), "span");
      state.sample = add(item, "canvas");
      state.sample.width = 28;
      state.sample.height = HIGH / 2 + 4;
      item.append(`${name_of(state)}: ${state.meaning}`);
    });
    add_states(STATES, this.lanes, ({ name }) => name);
    add_states(PORT_STATES, this.lanes.flatMap(({ ports }) => ports), () => "port");
    const kinds = new Set(this.lanes.flatMap((lane) => lane.marks.map(([, kind]) => kind)));
    const signs = {
      "leap second": "\u25bc 23:59:60 inserted", "deleted second": "\u25bd 23:59:59 deleted",
      "month end": "\u2506 the month ends", "premise broken": "\u2715 a premise broke",
    };
    for (const [kind, sign] of Object.entries(signs)) if (kinds.has(kind)) add(part("legend"), "span", sign);
    const has_offs = this.lanes.some(({ offs }) => offs.length), has_stamps = this.lanes.some(({ stamps }) => stamps.length);
    if (has_offs) add(part("legend"), "span", "\u2501 how late (+) or early (-) a second began, in the band of its bound");
    if (has_stamps) add(part("legend"), "span", "\u25c6 the same by a stamp");
  }

  draw_legend() {
    for (const state of [...STATES, ...PORT_STATES].filter((each) => each.sample)) {
      const pen = state.sample.getContext("2d"), all = state.sample.height;
      const is_gap = state === PORT_STATES[PORT.SILENT], high = state.is_high ? all : LOW - 3;
      pen.clearRect(0, 0, 28, all);
      pen.fillStyle = is_gap ? this.colours.rule : state.brush;
      pen.fillRect(0, is_gap ? all - 1 : all - high, 28, is_gap ? 1 : high);
    }
  }

  // ---- moving

  show_edges(from, to) { // no further than the log, no nearer than a few edges
    const all = this.last - this.first + 1;
    const wide = clamp(to - from, Math.min(FEWEST, all), all);
    this.view.from = clamp((from + to - wide) / 2, this.first - 0.5, this.last + 0.5 - wide);
    this.view.to = this.view.from + wide;
    this.redraw();
  }

  show_all() { this.show_edges(this.first - 0.5, this.last + 0.5); }

  move(edges) { this.show_edges(this.view.from + edges, this.view.to + edges); }

  zoom(factor, about) {
    const wide = this.view.to - this.view.from, all = this.last - this.first + 1;
    const wanted = clamp(wide * factor, Math.min(FEWEST, all), all);
    const from = about - (about - this.view.from) / wide * wanted;
    this.show_edges(from, from + wanted);
  }

  zoom_here(factor) { // about the chosen edge, all of which is seen then
    this.zoom(factor, this.cursor.edge);
    const left = this.cursor.edge - 0.5 - this.view.from, right = this.cursor.edge + 0.5 - this.view.to;
    if (left < 0) this.move(left);
    if (right > 0) this.move(right);
  }

  choose(lane, edge, from) { // the cursor; `from` is what led here
    if (!lane) return;
    this.cursor = { lane, edge: clamp(edge, this.first, this.last) };
    const frame = part("timeline"), top = this.top_of(lane) - TOP;
    frame.scrollTop = clamp(frame.scrollTop, top + lane.height + TOP - frame.clientHeight, top);
    if (this.cursor.edge - 0.5 < this.view.from || this.cursor.edge + 0.5 > this.view.to) {
      const wide = this.view.to - this.view.from;
      this.show_edges(this.cursor.edge - wide / 2, this.cursor.edge + wide / 2);
    }
    part("line").textContent = this.told_of(lane, this.cursor.edge);
    this.on_choice(lane, this.cursor.edge, from);
    this.redraw();
  }

  // ---- looking for a cause

  look_for() { // what the choices say, anew: [lane, edge] of each run of the cause, or of each silence
    const cause = this.causes.indexOf(part("cause").value), reader = part("reader").value;
    this.found = [];
    this.lanes.forEach((lane, number) => {
      if (reader && lane.reader !== reader) return;
      lane.firsts.forEach((first, place) => {
        const is_found = cause < 0 ? !STATES[lane.states[place]].is_high : lane.causes[place] === cause;
        if (is_found) this.found.push([number, first]);
      });
    });
    this.found.sort((one, other) => one[1] - other[1] || one[0] - other[0]);
    this.lies = this.lies_of(reader);
    part("lie").disabled = !this.lies.length;
    const count = this.found.length;
    part("found").textContent = count ? `${this.wanted}: ${count}` : `no ${this.wanted}`;
    part("previous").disabled = part("next").disabled = !count;
    this.redraw();
  }

  // [lane, edge, kind, port] of each run at which a port told another second or another mark.
  lies_of(reader) {
    const lies = [];
    this.lanes.forEach((lane, number) => {
      if (reader && lane.reader !== reader) return;
      lane.ports.forEach(({ firsts, states }, port) => firsts.forEach((first, place) => {
        if (PORT_STATES[states[place]].is_high) lies.push([number, first, states[place], port]);
      }));
    });
    return lies.sort((one, other) => one[1] - other[1] || one[0] - other[0]);
  }

  get wanted() { return part("cause").value || "silence"; }

  go(step) { // to the next or the previous one of what is looked for
    const place = this.go_among(this.found, step);
    if (place >= 0) part("found").textContent = `${this.wanted}: ${place + 1} of ${this.found.length}`;
  }

  go_to_lie(step) {
    const place = this.go_among(this.lies, step);
    if (place < 0) return;
    const [number, edge, , port] = this.lies[place];
    const others = this.lies.filter((lie) => lie[0] === number && lie[1] === edge).map((lie) => lie[3]);
    const who = others.length > 1 ? `ports ${others.join(" and ")}` : `port ${port}`;
    part("found").textContent = `lie: ${place + 1} of ${this.lies.length}, ${who} of ${this.lanes[number].reader}`;
  }

  go_among(found, step) { // to the next or the previous one, seen from the cursor
    if (!found.length) return -1;
    const here = this.lanes.indexOf(this.cursor.lane), count = found.length;
    const compare = ([number, edge]) => edge - this.cursor.edge || number - here;
    let place = found.findIndex((each) => (step > 0 ? compare(each) > 0 : compare(each) >= 0));
    if (place < 0) place = count;
    place = ((step > 0 ? place : place - 1) + count) % count;
    this.choose(this.lanes[found[place][0]], found[place][1]);
    return place;
  }

  // ---- keys, wheel and mouse

  on_key(event) {
    if (event.ctrlKey || event.metaKey || event.altKey || !this.lanes.length) return;
    const { lane, edge } = this.cursor, here = this.lanes.indexOf(lane);
    const wide = Math.max(1, Math.floor(this.view.to - this.view.from)), step = event.shiftKey ? wide : 1;
    const does = {
      ArrowLeft: () => this.choose(lane, edge - step),
      ArrowRight: () => this.choose(lane, edge + step),
      PageUp: () => this.choose(lane, edge - wide),
      PageDown: () => this.choose(lane, edge + wide),
      ArrowUp: () => this.choose(this.lanes[Math.max(0, here - 1)], edge),
      ArrowDown: () => this.choose(this.lanes[Math.min(this.lanes.length - 1, here + 1)], edge),
      Home: () => this.choose(lane, this.first),
      End: () => this.choose(lane, this.last),
      "+": () => this.zoom_here(0.5),
      "=": () => this.zoom_here(0.5),
      "-": () => this.zoom_here(2),
      0: () => this.show_all(),
      n: () => this.go(1),
      p: () => this.go(-1),
      l: () => this.go_to_lie(1),
      L: () => this.go_to_lie(-1),
    }[event.key];
    if (!does) return;
    event.preventDefault();
    does();
  }

  on_hover(event) {
    const edge = Math.round(this.edge_at(event.offsetX)), hover = part("hover");
    hover.hidden = !this.lanes.length || event.offsetX < this.gutter || edge < this.first || edge > this.last;
    if (hover.hidden) return;
    hover.textContent = this.told_of(this.lane_at(event.offsetY), edge);
    const room = this.canvas.clientWidth - hover.offsetWidth - 4;
    hover.style.left = `${clamp(event.offsetX + 14, 0, Math.max(0, room))}px`;
    hover.style.top = `${event.offsetY - part("timeline").scrollTop + 18}px`;
  }

  on_wheel(event) {
    event.preventDefault();
    const line = event.deltaMode === 1 ? 16 : 1;
    if (Math.abs(event.deltaX) > Math.abs(event.deltaY) || event.shiftKey) {
      this.move((event.deltaX || event.deltaY) * line / this.width * (this.view.to - this.view.from));
    } else {
      this.zoom(Math.exp(event.deltaY * line * 0.002), this.edge_at(event.offsetX));
    }
    this.on_hover(event);
  }

  on_drag(event) {
    if (this.dragged && Math.abs(event.offsetX - this.dragged.x) > 3) this.dragged.is_far = true;
    if (this.dragged && this.dragged.is_far) {
      this.move((this.dragged.x - event.offsetX) / this.width * (this.view.to - this.view.from));
      this.dragged.x = event.offsetX;
    }
    this.on_hover(event);
  }

  on_release(event) {
    if (this.dragged && !this.dragged.is_far && event.offsetX >= this.gutter) {
      this.choose(this.lane_at(event.offsetY), Math.round(this.edge_at(event.offsetX)));
    }
    this.dragged = null;
  }

  listen() {
    const { canvas } = this;
    canvas.addEventListener("wheel", (event) => this.on_wheel(event), { passive: false });
    canvas.addEventListener("keydown", (event) => this.on_key(event));
    canvas.addEventListener("pointerdown", (event) => {
      this.dragged = { x: event.offsetX, is_far: false }; // from where, and if it went too far to be a click
      canvas.setPointerCapture(event.pointerId);
    });
    canvas.addEventListener("pointermove", (event) => this.on_drag(event));
    canvas.addEventListener("pointerup", (event) => this.on_release(event));
    canvas.addEventListener("pointercancel", () => { this.dragged = null; });
    canvas.addEventListener("pointerleave", () => { part("hover").hidden = true; });
    part("cause").addEventListener("change", () => this.look_for());
    part("reader").addEventListener("change", () => this.look_for());
    part("next").addEventListener("click", () => this.go(1));
    part("previous").addEventListener("click", () => this.go(-1));
    part("lie").addEventListener("click", () => this.go_to_lie(1));
    part("in").addEventListener("click", () => this.zoom_here(0.5));
    part("out").addEventListener("click", () => this.zoom_here(2));
    part("whole").addEventListener("click", () => this.show_all());
    part("edge").addEventListener("change", () => { // of the reader that is looked for, if it is one
      const lane = this.lanes.find(({ reader }) => reader === part("reader").value);
      this.choose(lane || this.cursor.lane, Math.round(Number(part("edge").value)) || this.first);
    });
    part("find-controls").addEventListener("submit", (event) => event.preventDefault());
    new ResizeObserver(() => this.look()).observe(part("timeline"));
    matchMedia("(prefers-color-scheme: dark)").addEventListener("change", () => this.look());
  }
}

function write(pen, text, x, y, align, style, font = FONT) {
  pen.font = font;
  pen.textBaseline = "middle";
  pen.textAlign = align;
  pen.fillStyle = style;
  pen.fillText(text, x, y);
}

function stroke(pen, points, filling) {
  pen.beginPath();
  points.forEach(([x, y], place) => (place ? pen.lineTo(x, y) : pen.moveTo(x, y)));
  if (filling) {
    pen.fillStyle = filling;
    pen.fill();
  }
  pen.stroke();
}
