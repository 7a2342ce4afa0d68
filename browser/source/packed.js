// The stamps that a page carries apart from the lines of its export

const NO_TEXT = new Uint8Array(0);

/** Where the words between these places begin and end. */
function wordsBetween(bytes, from, to) {
  const words = [];
  for (let at = from; at <= to; at = words.at(-1)[1] + 1) {
    const blank = bytes.indexOf(32, at);
    words.push([at, blank < 0 || blank > to ? to : blank]);
  }
  return words;
}

/** The number that stands between these places, or -1. */
function numberBetween(bytes, from, to) {
  let number = from < to ? 0 : -1;
  for (let at = from; at < to; at++) {
    if (!isDigit(bytes[at])) return -1;
    number = Math.min(number * 10 + bytes[at] - 48, MOST_BYTES);
  }
  return number;
}

/** The two halves of a stamp: its id, and its tree from the semicolon on. */
function halvesOf(text) {
  const semicolon = text.indexOf(0x3b), middle = semicolon < 0 ? 0 : semicolon;
  return [text.subarray(0, middle), text.subarray(middle)];
}

/** What becomes of the old bytes: so many stay first, so many of the next are replaced, and by what. Null if there are less. */
function changed(old, { head, replaced, fresh }) {
  if (head < 0 || replaced < 0 || head + replaced > old.length) return null;
  const text = new Uint8Array(old.length - replaced + fresh.length);
  text.set(old.subarray(0, head));
  text.set(fresh, head);
  text.set(old.subarray(head + replaced), head + fresh.length);
  return text;
}

/** The texts of stamps that were taken out of the lines of an export. A row for each line has, by blanks apart, how many lines before
 * it the stamp stands that it is like, the change of its id if there is one, and the change of its tree, from the semicolon on. 0 is no
 * stamp. `3,17` are two: the id is like that of the first, and the tree like those of both merged. The row of a line whose stamp was left
 * in it is none. A row that is spoilt has the text of no stamp. */
class PackedStamps {
  constructor(bytes) {
    Object.assign(this, { bytes, rows: [null], texts: [] });
    for (let from = 0; from < bytes.length;) {
      const end = bytes.indexOf(10, from), to = end < 0 ? bytes.length : end;
      this.rows.push(this.rowOf(wordsBetween(bytes, from, to)));
      from = to + 1;
    }
  }

  rowOf([[from, to], ...words]) {
    if (words.length !== 3 && words.length !== 6) return null;
    const { bytes } = this, comma = bytes.subarray(from, to).indexOf(44);
    const named = comma < 0 ? [[from, to]] : [[from, from + comma], [from + comma + 1, to]];
    const backs = named.map((place) => numberBetween(bytes, ...place)), changes = [words.slice(-3)];
    if (words.length === 6) changes.unshift(words.slice(0, 3));
    return { backs: comma < 0 && backs[0] === 0 ? [] : backs, changes: changes.map((change) => this.changeOf(change)) };
  }

  changeOf([head, replaced, fresh]) {
    const { bytes } = this;
    return { head: numberBetween(bytes, ...head), replaced: numberBetween(bytes, ...replaced), fresh: bytes.subarray(...fresh) };
  }

  /** Whether the stamp of this line was taken out of it. */
  has(line) {
    return (this.rows[line] ?? null) !== null;
  }

  /** The text of a line's stamp. All that it is like, one by the other, are unpacked before it, and kept. */
  textOf(line) {
    for (const next of this.waitingFor(line)) this.texts[next] = this.unpacked(next);
    return this.texts[line];
  }

  /** The lines whose stamps are to be unpacked for that of this one, and have not yet been, the first one first. */
  waitingFor(line) {
    const found = new Set(), open = [line];
    while (open.length > 0) {
      const next = open.pop();
      if (found.has(next) || this.texts[next] !== undefined || !this.has(next)) continue;
      found.add(next);
      open.push(...this.rows[next].backs.filter((back) => back > 0).map((back) => next - back));
    }
    return [...found].sort((one, other) => one - other);
  }

  unpacked(line) {
    const { backs, changes } = this.rows[line];
    const stamps = backs.map((back) => back > 0 ? this.texts[line - back] ?? NO_TEXT : NO_TEXT);
    if (stamps.includes(NO_TEXT)) return NO_TEXT;
    const [first = NO_TEXT, second] = stamps, [id, tree] = halvesOf(first);
    const base = second === undefined ? tree : mergedTrees(first, second);
    const halves = [changes.length === 2 ? changed(id, changes[0]) : id, base === null ? null : changed(base, changes.at(-1))];
    if (halves.includes(null) || halves[0].length + halves[1].length > MOST_BYTES) return NO_TEXT;
    const text = new Uint8Array(halves[0].length + halves[1].length);
    text.set(halves[0]);
    text.set(halves[1], halves[0].length);
    return text;
  }
}
