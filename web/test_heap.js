// Asks the heap of a page's module for random blocks: each is aligned, within the memory and apart from all
// others, and keeps what was written in it when it grows; then refusals. web/test_page.py runs it in the page.

const ROUNDS = 50_000, MOST_BLOCKS = 300, LARGEST = 1 << 20, HEAP_PAGES = 4096;

let seed = 1;
const chance = (below) => { // the numbers of a small generator, the same each time
  seed = (Math.imul(seed, 1664525) + 1013904223) >>> 0;
  return Math.floor(seed / 2 ** 32 * below);
};

function heap_of(module, most) {
  const memory = new WebAssembly.Memory({ initial: 64, maximum: most });
  const calls = new WebAssembly.Instance(module, { env: { memory }, page: { grows: () => {} } }).exports;
  return { memory, calls, bytes: () => new Uint8Array(memory.buffer) };
}

function require(is_right, what) {
  if (!is_right) throw new Error(what);
}

const size_by_chance = () => Math.ceil(2 ** (Math.log2(LARGEST) * chance(1000) / 1000));

function write(heap, block) {
  block.mark = 1 + chance(255);
  heap.bytes().fill(block.mark, block.place, block.place + block.size);
}

function check(heap, { place, size, mark }, count) { // that the first bytes are as they were written
  const part = heap.bytes().subarray(place, place + count);
  require(part.every((byte) => byte === mark), `the block of ${size} bytes at ${place} was changed`);
}

function play(heap) {
  const blocks = [];
  for (let round = 0; round < ROUNDS; round++) {
    const block = blocks[chance(blocks.length)];
    const what = chance(3);
    if (what === 0 && block) {
      check(heap, block, block.size);
      heap.calls.heap_take(BigInt(block.place));
      blocks.splice(blocks.indexOf(block), 1);
    } else if (what === 1 && block) {
      const size = size_by_chance(), kept = Math.min(size, block.size);
      block.place = Number(heap.calls.heap_resize(BigInt(block.place), BigInt(size)));
      require(block.place > 0, "a block could not grow");
      check(heap, block, kept);
      block.size = size;
      write(heap, block);
    } else if (blocks.length < MOST_BLOCKS) {
      const size = size_by_chance(), place = Number(heap.calls.heap_give(BigInt(size)));
      require(place > 0 && place % 16 === 0, `a block of ${size} bytes at ${place}`);
      blocks.push({ place, size });
      write(heap, blocks[blocks.length - 1]);
    }
  }
  const sorted = [...blocks].sort((one, other) => one.place - other.place);
  sorted.forEach((block, number) => {
    const end = number + 1 < sorted.length ? sorted[number + 1].place : heap.memory.buffer.byteLength;
    require(block.place + block.size <= end, "two blocks overlap");
    check(heap, block, block.size);
  });
}

function check_refusals(module) { // what there is no memory for is refused, and the rest goes on
  const { calls, memory } = heap_of(module, 100);
  const small = calls.heap_give(100n);
  for (const size of [1n << 23n, 1n << 32n, 1n << 41n, 1n << 63n, (1n << 64n) - 1n]) {
    require(calls.heap_give(size) === 0n, `${size} bytes are not refused`);
    require(calls.heap_resize(small, size) === 0n, `growing to ${size} bytes is not refused`);
  }
  require(calls.heap_give(1n << 20n) !== 0n, "no block after a refusal");
  require(memory.buffer.byteLength <= 100 * 65536, "more memory than was allowed");
}

function test_heap(module) { // answers how many bytes of memory it took
  const heap = heap_of(module, HEAP_PAGES);
  play(heap);
  check_refusals(module);
  return heap.memory.buffer.byteLength;
}
