// What the worker of a recording does: the program judges it, and reads the files that were opened, a mebibyte
// of each at a time. So a large file takes no memory.

const PIECE = 1 << 20;
const reader = new FileReaderSync();
const kept = new Map(); // of each file the piece that was read last, and where it begins

function slice(file, from, to) {
  const end = Math.min(to, from + PIECE);
  let piece = kept.get(file);
  if (!piece || from < piece.at || end > piece.at + piece.bytes.length) {
    piece = { at: from, bytes: new Uint8Array(reader.readAsArrayBuffer(file.slice(from, from + PIECE))) };
    kept.set(file, piece);
    postMessage({ read: piece.bytes.length });
  }
  return piece.bytes.subarray(from - piece.at, end - piece.at);
}

self.onmessage = async ({ data: { module, words, files } }) => {
  const { status, output, told } = run_program(module, words, files, slice);
  postMessage({ status, output: await output, told: await told });
};
