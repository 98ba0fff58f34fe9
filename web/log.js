// ---- the lines of a log, which stay bytes until they are shown

const PART = 1 << 23; // bytes that are made text at once

class LogText {
  constructor(bytes, starts) { // where the lines begin, and at last where they end
    Object.assign(this, { bytes, starts, length: starts.length - 1, ascii: new TextDecoder() });
  }

  at(number) {
    return this.between(number, number + 1).replace(/\n$/, "");
  }

  between(from, to) { return this.ascii.decode(this.bytes.subarray(this.starts[from], this.starts[to])); }

  lines_with(wanted) { // the numbers of those that have this text
    const found = [];
    for (let from = 0; wanted && from < this.length;) {
      const to = clamp(first_after(this.starts, this.starts[from] + PART, from), from + 1, this.length);
      const text = this.between(from, to), zero = this.starts[from];
      for (let at = text.indexOf(wanted); at >= 0;) {
        const number = first_after(this.starts, zero + at + 1, from) - 1;
        found.push(number);
        at = text.indexOf(wanted, this.starts[number + 1] - zero);
      }
      from = to;
    }
    return found;
  }
}

const NO_LOG = new LogText(new Uint8Array(0), new Uint32Array(1));
