// ---- the editor of a scenario: a text with line numbers, one of which may be marked

const MOST_LINES = 10000, MOST_EDITED = 1 << 20; // lines and letters; browsers edit longer texts too slowly
const LONE_RETURN = /\r(?!\n)/; // an area for text makes a new line of it

class Editor {
  constructor(on_change) {
    Object.assign(this, { area: part("text"), on_change, marked: -1, starts: [0], held: null });
    this.list = new List(part("held"), () => {});
    this.area.addEventListener("input", () => {
      this.read();
      on_change();
    });
    this.area.addEventListener("scroll", () => this.draw());
    part("editor").addEventListener("paste", (event) => this.on_paste(event));
    new ResizeObserver(() => this.draw()).observe(this.area);
  }

  get text() { return this.held === null ? this.area.value : this.held; }

  // What is too long to be edited is held, and shown as a list; so is what an area for text would change.
  set(text) {
    const is_held = is_long(text) || LONE_RETURN.test(text);
    this.held = is_held ? text : null;
    this.area.value = is_held ? "" : text;
    this.area.scrollTop = this.area.scrollLeft = 0;
    for (const id of ["text", "numbers"]) part(id).hidden = is_held;
    part("held").hidden = !is_held;
    this.read();
    if (is_held) this.list.set({ length: this.count, at: (line) => this.line(line) });
  }

  read() {
    this.starts = starts_of(this.text);
    this.mark(-1);
  }

  get count() { // an end of line at the end begins no line
    const { starts, text } = this;
    return starts.length - (starts[starts.length - 1] === text.length ? 1 : 0);
  }

  end_of(line) { return this.starts[line + 1] === undefined ? this.text.length : this.starts[line + 1] - 1; }

  line(number) { return this.text.slice(this.starts[number], this.end_of(number)); }

  on_paste(event) { // in place of a held text, or of what is chosen, if that makes the text too long
    const pasted = event.clipboardData.getData("text"), { area } = this;
    if (this.held === null && !is_long(pasted)) return;
    event.preventDefault();
    const { value, selectionStart: from, selectionEnd: to } = area;
    this.set(this.held === null ? value.slice(0, from) + pasted + value.slice(to) : pasted);
    this.on_change();
  }

  mark(line) { // which is refused, from 0; -1 is none
    this.marked = line;
    this.area.setAttribute("aria-invalid", line >= 0);
    if (this.held !== null) this.list.mark(line < 0 ? [] : [line]);
    this.draw();
  }

  draw() {
    const { area } = this, first = Math.floor(area.scrollTop / ROW);
    const last = Math.min(this.starts.length, first + Math.ceil(area.clientHeight / ROW) + 1);
    const numbers = Array.from({ length: Math.max(0, last - first) }, (_, place) => first + place + 1);
    part("numbers").textContent = numbers.join("\n");
    part("numbers").style.top = `${first * ROW - area.scrollTop + 2}px`;
    part("band").hidden = this.marked < 0 || this.held !== null;
    part("band").style.top = `${this.marked * ROW - area.scrollTop + 2}px`;
  }

  show(line) { // scrolls to a line
    if (this.held !== null) return this.list.show(line);
    const { area } = this, top = line * ROW;
    if (top < area.scrollTop || top + ROW > area.scrollTop + area.clientHeight) {
      area.scrollTop = Math.max(0, top - area.clientHeight / 2);
    }
    this.draw();
  }

  go_to(line) { // selects a line
    this.show(line);
    if (this.held !== null) return part("held").focus();
    this.area.focus();
    this.area.setSelectionRange(this.starts[line], this.end_of(line));
    this.show(line);
  }
}

const is_long = (text) => text.length > MOST_EDITED || starts_of(text).length > MOST_LINES;

function starts_of(text) { // where its lines begin
  const starts = [0];
  for (let at = text.indexOf("\n"); at >= 0; at = text.indexOf("\n", at + 1)) starts.push(at + 1);
  return starts;
}
