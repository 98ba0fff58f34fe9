// ---- frames: one is made of a second, one is read; both are drawn element by element

const LOOKS = ["zero", "one", "marker", "bad"];
const NAMES = ["a zero", "a one", "a marker", "a bad pulse"];
const KIND_OF_FIELD = { marker: "marker", none: "none", "straight binary seconds": "binary" };
const kind_of = (field) => KIND_OF_FIELD[field] || (FIELDS.includes(field) ? "time" : "control");
const UNITS = { day: "day of the year", year: "year of the century" };

// A table of the hundred elements, ten a row as in docs/FRAME.md; `wrong` says what is wrong with one.
function draw_elements(parent, symbols, wrong) {
  parent.replaceChildren();
  const table = add(parent, "table", "", "elements");
  add(table, "caption", "Elements: one each 10 ms, in rows of ten");
  const head = add(table, "tr");
  add(head, "th");
  for (let column = 0; column < 10; column++) add(head, "th", `+${column}`).scope = "col";
  for (let row = 0; row < 100; row += 10) {
    const line = add(table, "tr");
    add(line, "th", String(row)).scope = "row";
    for (const each of data.elements.slice(row, row + 10)) {
      draw_element(line, each, symbols[each.element], wrong);
    }
  }
  parent.addEventListener("pointerover", on_field);
}

function draw_element(line, { element, label, field, weight }, symbol, wrong) {
  const cell = add(line, "td", label, `of-${kind_of(field)}`);
  add(cell, "span", symbol === undefined ? "" : SYMBOLS[symbol], "letter");
  add(cell, "span", "", `pulse ${symbol === undefined ? "missing" : LOOKS[symbol]}`);
  const what = place_of(label, field) || `${UNITS[field] || field}, weight ${weight}`;
  cell.title = `element ${element}: ${what}; ${symbol === undefined ? "nothing came" : NAMES[symbol]}`;
  cell.dataset.field = field;
  if (wrong.has(element)) {
    cell.classList.add("wrong");
    cell.title += `; ${wrong.get(element)}`;
    add(cell, "span", " \u2717").setAttribute("aria-label", "wrong");
  }
}

// What an element is that has no weight.
const place_of = (label, field) => ({ none: "no field", marker: `the marker ${label}` })[field];

function on_field(event) { // marks the elements of the field that is pointed at, and its line
  const pointed = event.target.closest("[data-field]");
  const panel = event.currentTarget.closest(".panel"), field = pointed && pointed.dataset.field;
  for (const each of panel.querySelectorAll("[data-field]")) {
    each.classList.toggle("is-chosen", each.dataset.field === field && !place_of("", field));
  }
}

const NO_SECOND = "is no UTC second from 2000-01-02 to 2099-12-30, as 2016-12-31T23:59:60Z is:"
  + " second 60 comes at the end of a month alone.";
const PARITY_ENDS = 76; // the parity counts elements below it
const yes = (flag) => (flag ? "yes" : "no");

function zone_text(half_hours) { // as UTC+05:30
  const sign = half_hours < 0 ? "\u2212" : "+", size = Math.abs(half_hours);
  return `UTC${sign}${String(Math.floor(size / 2)).padStart(2, "0")}:${size % 2 ? "30" : "00"}`;
}

// What each field says, in the order of its elements.
function fields_of({ coded, control }, is_even) {
  const values = Object.fromEntries(FIELDS.map((name) => [name, String(coded[name])]));
  const which = control.leap_delete ? "23:59:59 is deleted" : "23:59:60 is inserted";
  return {
    ...values,
    "leap pending": control.leap_pending ? `yes (${which})` : "no",
    "leap is deleted": yes(control.leap_delete),
    "daylight saving pending": yes(control.dst_pending),
    "daylight saving": yes(control.dst),
    offset: `${control.offset_half_hours} half hours, to be added for UTC`,
    "time quality": `${control.quality}${{ 0: " (locked)", 15: " (failed)" }[control.quality] || ""}`,
    parity: is_even ? "even" : "odd",
    "straight binary seconds": String(coded.sbs),
  };
}

// A table of the fields; `wrong` says what is wrong with one.
function draw_fields(parent, values, wrong) {
  parent.replaceChildren();
  const table = add(parent, "table", "", "fields");
  add(table, "caption", "Fields");
  const head = add(table, "tr");
  for (const name of ["Field", "Elements", "Value"]) add(head, "th", name).scope = "col";
  for (const [field, value] of Object.entries(values)) {
    const line = add(table, "tr", "", wrong.has(field) ? "wrong" : "");
    line.dataset.field = field;
    add(line, "td", UNITS[field] || field);
    add(line, "td", ranges(elements_of(field).map(({ element }) => element)));
    add(line, "td", wrong.get(field) || value);
  }
  parent.addEventListener("pointerover", on_field);
}

function ranges(numbers) { // as 1 to 4, 6 to 8
  const found = [];
  for (const number of numbers) {
    const last = found[found.length - 1];
    if (last && last[1] === number - 1) last[1] = number; else found.push([number, number]);
  }
  return found.map(([from, to]) => (from === to ? `${from}` : `${from} to ${to}`)).join(", ");
}

// ---- the tab that makes a frame

function frame_wanted() { // what is chosen in its controls
  return {
    local: Number(part("zone").value), pending: part("pending").value, quality: Number(part("quality").value),
    dst: part("dst").checked, dst_pending: part("dst-pending").checked,
    is_odd: part("parity").value === "odd",
  };
}

function show_frame(codec) {
  const time = part("time").value.trim(), symbols = codec.frame(time, frame_wanted());
  part("time").setAttribute("aria-invalid", !symbols);
  for (const id of ["frame-elements", "frame-fields"]) part(id).hidden = !symbols;
  part("to-read").disabled = !symbols;
  part("frame-text").value = symbols ? frame_text(symbols) : "";
  part("frame-state").textContent = symbols ? "" : `${time || "This"} ${NO_SECOND}`;
  if (!symbols) return;
  draw_elements(part("frame-elements"), symbols, new Map());
  draw_fields(part("frame-fields"), fields_of(codec.decode(symbols), !frame_wanted().is_odd), new Map());
}

function start_frame(codec, texts) {
  for (let local = -31; local <= 31; local++) {
    add_option(part("zone"), String(local), local ? zone_text(local) : "UTC");
  }
  part("zone").value = "0";
  for (let quality = 0; quality <= 15; quality++) {
    const word = { 0: " locked", 15: " failed" }[quality] || "";
    add_option(part("quality"), String(quality), `${quality}${word}`);
  }
  part("frame-controls").addEventListener("input", () => show_frame(codec));
  part("frame-controls").addEventListener("submit", (event) => event.preventDefault());
  part("to-read").addEventListener("click", () => {
    part("read-text").value = part("frame-text").value;
    part("read-parity").value = part("parity").value === "odd" ? "1" : "0";
    show_reading(codec, texts);
    show_tab("read");
  });
  show_frame(codec);
}

// ---- the tab that reads a frame

function fault_text(fault) { // its place in words
  const { number, detail } = fault, { cause } = data.numbers[number];
  if (ELEMENT_FAULTS.includes(number)) {
    const { label, field } = data.elements[detail];
    return `element ${detail}, ${place_of(label, field) || `${label} of ${UNITS[field] || field}`}`;
  }
  return FIELD_FAULTS.includes(number) ? `the field ${FIELDS[detail]}` : cause.replace("{}", detail);
}

function draw_fault(fault, is_first) {
  const { example, cure } = data.numbers[fault.number];
  const box = add(part("faults"), "p", "", "fault");
  add(box, "strong", `fault ${named(fault)}`);
  box.append(`: ${fault_text(fault)}. `);
  if (is_first) box.append(`For example: ${example}. What to do: ${cure}.`);
}

// What is wrong at which element and in which field.
function places_of(faults) {
  const elements = new Map(), fields = new Map();
  for (const fault of faults) {
    const text = `fault ${named(fault)}`;
    if (ELEMENT_FAULTS.includes(fault.number) && fault.detail < 100) {
      elements.set(fault.detail, text);
      fields.set(data.elements[fault.detail].field, text);
    } else if (FIELD_FAULTS.includes(fault.number)) {
      fields.set(FIELDS[fault.detail], text);
      for (const { element } of elements_of(FIELDS[fault.detail])) elements.set(element, text);
    }
  }
  return { elements, fields };
}

function missing_from(count) { // the fields that have elements which did not come
  return new Map(data.elements.slice(count).map(({ field }) => [field, "not all of it came"]));
}

function rules_wanted() { // by their numbers
  return ["read-parity", "read-sense", "read-sbs"].map((id) => Number(part(id).value));
}

function show_reading(codec, texts) {
  const text = part("read-text").value, rules = rules_wanted();
  const { symbols, wrong } = symbols_of(text);
  part("read-text").setAttribute("aria-invalid", Boolean(wrong));
  part("faults").replaceChildren();
  for (const id of ["read-elements", "read-fields"]) part(id).hidden = Boolean(wrong);
  if (wrong) {
    const told = `letter ${wrong.place + 1}, ${wrong.letter}, stands for no symbol: 0, 1, P and ? do`;
    part("reading").textContent = told;
    return;
  }
  part("reading").textContent = (texts.lines(text, rules) || "").trimEnd();
  const { found, mended } = symbols.length ? codec.faults(symbols) : { found: [], mended: [] };
  const fault = codec.fault_told(symbols.slice(0, MOST_SYMBOLS), rules);
  const faults = found.length || !fault ? found : [fault];
  faults.forEach((each, place) => draw_fault(each, place === 0));
  const places = places_of(faults);
  draw_elements(part("read-elements"), symbols, places.elements);
  part("read-fields").hidden = !symbols.length;
  if (!symbols.length) return;
  const decoded = codec.decode(mended), is_even = Boolean(codec.ask("has_parity", codec.at("symbols"), 0));
  const values = fields_of(decoded, is_even);
  if (symbols.length < PARITY_ENDS || [...places.elements.keys()].some((element) => element < PARITY_ENDS)) {
    values.parity = "not known, as elements are wrong that it counts";
  }
  draw_fields(part("read-fields"), values, new Map([...missing_from(symbols.length), ...places.fields]));
}

function start_read(codec, texts) {
  part("read-text").value = part("frame-text").value;
  part("panel-read").addEventListener("input", () => show_reading(codec, texts));
  show_reading(codec, texts);
}
