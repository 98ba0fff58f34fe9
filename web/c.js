// ---- what the page and its worker have of C, by constants that web/page.py puts before this: the structures of
// c/layout.txt as LAYOUT, its NUMBERS, and of such numbers the words LOCKS, CAUSES, FIELDS, FAULT_NAMES

const { RUN_DONE, RUN_REFUSED, RUN_NO_LOG, RUN_NO_MEMORY } = NUMBERS;
const { FAULT_SHORT, FAULT_LONG, FAULT_PULSE, FAULT_MARKER, FAULT_DIGIT, FAULT_RANGE } = NUMBERS;
const ELEMENT_FAULTS = [FAULT_PULSE, FAULT_MARKER], FIELD_FAULTS = [FAULT_DIGIT, FAULT_RANGE];

// A number of a structure; one of 64 bits is read in halves, which is quicker than a BigInt.
const get = (view, place, { at, reads }) => (reads === "getBigUint64"
  ? view.getUint32(place + at, true) + 2 ** 32 * view.getUint32(place + at + 4, true)
  : view[reads](place + at, true));

const fault_of = (answer) => ({ number: answer & 255, detail: answer >>> 8 });

// Its number, its name, and what it says beside that, if anything.
function fault_words({ number, detail }) {
  const words = [number, FAULT_NAMES[number]];
  if (FIELD_FAULTS.includes(number)) return [...words, FIELDS[detail]];
  return number === FAULT_SHORT || ELEMENT_FAULTS.includes(number) ? [...words, detail] : words;
}
