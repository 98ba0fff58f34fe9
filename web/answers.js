// What web/compare.py asks of the page's modules. A request is a scenario, a second
// whose frame is to be made, or a frame to be read; of a scenario the answer is status, hash of its log, and
// why it is refused.

const bytes_of = (text) => Uint8Array.from(atob(text), (letter) => letter.charCodeAt(0));

async function hash_of(bytes) {
  const digest = new Uint8Array(await crypto.subtle.digest("SHA-256", bytes));
  return Array.from(digest, (byte) => byte.toString(16).padStart(2, "0")).join("");
}

// What is drawn, with lists in place of arrays of numbers.
function drawn_of({ lanes, causes, first, last, verdict, broken, refusal, dues }) {
  const plain = (key, value) => (ArrayBuffer.isView(value) ? [...value] : value);
  const refused = refusal && refusal.line, shown = lanes.length ? dues.filter(([edge]) => edge <= last) : [];
  return JSON.parse(JSON.stringify({ lanes, causes, first, last, verdict, broken, refused, dues: shown }, plain));
}

function frame_of({ time, ...wanted }, { codec }) {
  const symbols = codec.frame(time, wanted);
  return symbols && frame_text(symbols);
}

// The lines without the last newline; null of a text that is no frame.
function reading_of({ frame, rules }, { texts }) {
  const lines = texts.lines(frame, rules);
  return lines && lines.replace(/\n$/, "");
}

async function answer_of(request, calls) {
  if (request.time !== undefined) return frame_of(request, calls);
  if (request.frame !== undefined) return reading_of(request, calls);
  const result = await calls.run(bytes_of(request.text), request.shown), why = result.refusal;
  const reason = why && `line ${why.line}: ${why.number}: ${why.reason}`;
  const answer = [result.status, await hash_of(result.log), reason];
  return request.is_drawn ? [...answer, drawn_of(result)] : answer;
}

async function answers_of(requests, calls) {
  const answers = [];
  for (const request of requests) answers.push(await answer_of(request, calls));
  return answers;
}
