// ---- what all parts of a page use: that of tools/view, and that of web/

const data = JSON.parse(document.getElementById("data").textContent);
const part = (id) => document.getElementById(id);
const ROW = 18; // the height of a line in a list, as in timeline.css
const MOST_HEIGHT = 8000000; // browsers have no higher elements
const MOST_LETTERS = 2000; // of a line that is shown

const clamp = (value, least, most) => Math.max(least, Math.min(most, value));
const cut = (text, most) => (text.length > most ? `${text.slice(0, most)} ..` : text);

function add(parent, kind, text = "", look = "") {
  const element = parent.appendChild(document.createElement(kind));
  element.textContent = text;
  if (look) element.className = look;
  return element;
}

function add_option(select, value, text) {
  add(select, "option", text).value = value;
}

// ---- a list of which only what is seen stands in the page

const NO_LINES = { length: 0, at: () => "" };

class List {
  constructor(element, on_pick) {
    Object.assign(this, { element, on_pick, lines: NO_LINES, chosen: -1, found: [], refused: -1 });
    this.room = add(element, "div", "", "room");
    this.options = [];
    element.addEventListener("scroll", () => this.draw());
    element.addEventListener("keydown", (event) => this.on_key(event));
    element.addEventListener("click", (event) => {
      const option = event.target.closest("[role=option]");
      if (option) this.pick(Number(option.dataset.number));
    });
    new ResizeObserver(() => this.draw()).observe(element);
  }

  set(lines) {
    Object.assign(this, { lines, chosen: -1, found: [], refused: -1 });
    this.height = Math.min(lines.length * ROW, MOST_HEIGHT);
    this.room.style.height = `${this.height}px`;
    this.digits = String(lines.length).length;
    this.element.scrollTop = 0;
    this.draw();
  }

  // How far the lines go beyond the height that an element can have.
  get excess() { return Math.max(0, this.lines.length * ROW - this.height); }

  get shift() { // the lines are so much higher up than their place in the element
    const room = this.height - this.element.clientHeight;
    return room > 0 ? this.excess * clamp(this.element.scrollTop / room, 0, 1) : 0;
  }

  draw() {
    const shift = this.shift, above = this.element.scrollTop + shift;
    const from = Math.max(0, Math.floor(above / ROW) - 5);
    const to = Math.min(this.lines.length, Math.ceil((above + this.element.clientHeight) / ROW) + 5);
    while (this.options.length < to - from) this.options.push(this.add());
    this.options.forEach((option, place) => {
      const number = from + place;
      option.hidden = number >= to;
      if (!option.hidden) this.fill(option, number, number * ROW - shift);
    });
    this.tell();
  }

  add() {
    const option = add(this.element, "div");
    option.setAttribute("role", "option");
    add(option, "span", "", "number");
    add(option, "span");
    return option;
  }

  fill(option, number, top) {
    option.id = `${this.element.id}-${number}`;
    option.dataset.number = number;
    option.style.top = `${top}px`;
    option.firstChild.textContent = `${String(number + 1).padStart(this.digits)}  `;
    option.lastChild.textContent = cut(this.lines.at(number), MOST_LETTERS);
    option.lastChild.classList.toggle("found", this.found[first_after(this.found, number)] === number);
    option.classList.toggle("refused", number === this.refused);
    option.setAttribute("aria-setsize", this.lines.length);
    option.setAttribute("aria-posinset", number + 1);
    option.setAttribute("aria-selected", number === this.chosen);
  }

  tell() {
    const id = `${this.element.id}-${this.chosen}`;
    if (this.options.some((option) => !option.hidden && option.id === id)) {
      this.element.setAttribute("aria-activedescendant", id);
    } else {
      this.element.removeAttribute("aria-activedescendant");
    }
  }

  show(number) { // chooses a line and scrolls to it
    this.chosen = number;
    if (number < 0) return this.draw();
    const height = this.element.clientHeight, above = this.element.scrollTop + this.shift;
    const top = number * ROW;
    if (top < above || top + ROW > above + height) {
      const wanted = clamp(top - height / 2, 0, Math.max(0, this.lines.length * ROW - height));
      const all = this.lines.length * ROW - height;
      this.element.scrollTop = all > 0 ? wanted * (this.height - height) / all : 0;
    }
    this.draw();
  }

  pick(number) {
    this.show(number);
    this.on_pick(number);
  }

  mark(found) { // underlines these lines
    this.found = found;
    this.draw();
  }

  on_key(event) {
    const page = Math.max(1, Math.floor(this.element.clientHeight / ROW) - 1);
    const last = this.lines.length - 1;
    const to = {
      ArrowDown: this.chosen + 1, ArrowUp: this.chosen - 1, PageDown: this.chosen + page,
      PageUp: this.chosen - page, Home: 0, End: last,
    }[event.key];
    if (to === undefined || last < 0) return;
    event.preventDefault();
    this.pick(clamp(to, 0, last));
  }
}
