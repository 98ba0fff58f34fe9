// ---- UTC, as a scenario has it at its edges, and how far a second that was told is from it. A second is its day,
// counted from 2000-01-01, and the second of that day, which is 86400 in 23:59:60

const first_after = (values, wanted, from = 0) => { // the first place at which a rising list is not below it
  let low = from, high = values.length;
  while (low < high) {
    const middle = (low + high) >> 1;
    if (values[middle] < wanted) low = middle + 1; else high = middle;
  }
  return low;
};

function second_text([day, sod]) {
  const date = new Date(Date.UTC(2000, 0, 1 + day)).toISOString(), minute = Math.min(Math.floor(sod / 60), 1439);
  const clock = [Math.floor(minute / 60), minute % 60, sod - 60 * minute].map((part) => String(part).padStart(2, "0"));
  return `${date.slice(0, 11)}${clock.join(":")}Z`;
}

// Tells the text of the second that begins at an edge, and by `at` the second, if there is one: by some of them as
// [edge, day, sod], from each of which on they count on as days do.
function clock_of(dues) {
  const edges = dues.map(([edge]) => edge);
  const at = (edge) => {
    const [from, day, sod] = dues[first_after(edges, edge + 1) - 1] || [], count = sod + edge - from;
    if (from === edge) return [day, sod];
    return from === undefined ? null : [day + Math.floor(count / 86400), count % 86400];
  };
  return Object.assign((edge) => (at(edge) ? second_text(at(edge)) : ""), { at });
}

function offset_text(told, due) { // as irig blame has it: 23:59:60 is a second more before a later day
  const more = ([day, sod], [other]) => (sod === 86400 && day < other ? 1 : 0);
  const ahead = 86400 * (told[0] - due[0]) + told[1] - due[1] + more(due, told) - more(told, due);
  const [minutes, hours, days] = [60, 3600, 86400].map((unit) => Math.floor(Math.abs(ahead) / unit));
  const counts = [[days, "d"], [hours % 24, "h"], [minutes % 60, "min"], [Math.abs(ahead) % 60, "s"]];
  const parts = counts.filter(([count]) => count).map((part) => part.join(" "));
  return [...parts, ahead < 0 ? "behind" : "ahead"].join(" ");
}

// A line of a log, with how far each second in it, by the place of its word, is from the one that is due.
function with_offsets(line, seconds, due) {
  const words = line.split(" "), others = seconds.filter(([, told]) => due && String(told) !== String(due));
  for (const [place, told] of others) words[place] += ` (${offset_text(told, due)})`;
  return words.join(" ");
}
