// Reading stamps

/** Reads stamps. The tree is left in `low`, `high` and `end`, its nodes in the order of the text: the least and the greatest
 * value below each, and the place behind its last node. A leaf's end is its own place and one. */
class StampReader {
  constructor(List, number, greatest) {
    this.number = number;
    this.greatest = greatest;
    this.low = new List(MOST_BYTES);
    this.high = new List(MOST_BYTES);
    this.end = new Int32Array(MOST_BYTES);
    this.open = new Int32Array(MOST_STAMP_LEVELS);
    this.rightOf = new Int32Array(MOST_STAMP_LEVELS);
    this.bases = new List(MOST_STAMP_LEVELS + 1);
    this.size = 0;
  }

  read(bytes, from, to) {
    this.bytes = bytes;
    this.at = from;
    this.to = to;
    this.take(0x5b);
    this.id(0);
    this.take(0x3b);
    this.tree();
    this.take(0x5d);
    if (this.at !== to) throw NO_STAMP;
  }

  next() {
    return this.at < this.to ? this.bytes[this.at] : -1;
  }

  take(byte) {
    if (this.next() !== byte) throw NO_STAMP;
    this.at++;
  }

  /** 0 and 1 for nothing and all, 2 for a pair. */
  id(levels) {
    const byte = this.next();
    this.at++;
    if (byte === 48 || byte === 49) return byte - 48;
    if (byte !== 0x28 || levels === MOST_STAMP_LEVELS) throw NO_STAMP;
    const left = this.id(levels + 1);
    this.take(0x2c);
    const right = this.id(levels + 1);
    this.take(0x29);
    if (left === right && left < 2) throw NO_STAMP;
    return 2;
  }

  /** Reads one node after another; `open` has the nodes around it, `rightOf` where their right trees begin, 0 before that. */
  tree() {
    const { low, high, end, bytes, to, open, rightOf, bases } = this;
    let levels = 0, size = 0;
    bases[0] = this.number(0);
    do {
      const node = size++;
      if (this.at < to && bytes[this.at] === 0x28) {
        if (levels === MOST_STAMP_LEVELS) throw NO_STAMP;
        this.at++;
        bases[levels + 1] = this.sum(bases[levels]);
        open[levels] = node;
        rightOf[levels++] = 0;
      } else {
        low[node] = high[node] = this.sum(bases[levels]);
        end[node] = size;
        while (levels > 0 && rightOf[levels - 1] > 0) {
          end[open[levels - 1]] = size;
          this.close(open[levels - 1], bases[levels], rightOf[--levels]);
        }
        if (levels > 0) rightOf[levels - 1] = size;
      }
      if (levels > 0 && (this.at >= to || bytes[this.at++] !== 0x2c)) throw NO_STAMP;
    } while (levels > 0);
    this.size = size;
  }

  close(node, base, right) {
    const { low, high, end } = this, left = node + 1, leftLow = low[left], rightLow = low[right];
    this.take(0x29);
    const least = low[node] = leftLow < rightLow ? leftLow : rightLow;
    high[node] = high[left] > high[right] ? high[left] : high[right];
    const areLeaves = end[left] === left + 1 && end[right] === right + 1;
    if (least !== base || (areLeaves && leftLow === rightLow)) throw NO_STAMP;
  }

  /** The number that follows, added to the sum above it. */
  sum(above) {
    const { bytes } = this, from = this.at, first = this.next();
    let number = 0, at = from;
    for (let digit = first - 48; digit >= 0 && digit <= 9 && at < this.to; digit = bytes[++at] - 48) number = number * 10 + digit;
    const length = at - from;
    this.at = at;
    if (length === 0 || (first === 48 && length > 1)) throw NO_STAMP;
    if (length > 15) number = this.longNumber(from, length);
    const sum = above + (this.number === Number ? number : this.number(number));
    if (sum > this.greatest) throw this.number === Number ? TOO_WIDE : NO_STAMP;
    return sum;
  }

  /** A number that may be beyond the exact ones. */
  longNumber(from, length) {
    if (this.number === Number) throw TOO_WIDE;
    if (length > 19) throw NO_STAMP;
    return new Text(from, from + length, null).string(this.bytes);
  }
}

const narrowStamps = new StampReader(Float64Array, Number, Number.MAX_SAFE_INTEGER);
const wideStamps = new StampReader(BigInt64Array, BigInt, 2n ** 63n - 1n);

/** The reader that holds the stamp between these places, exact also where its sums are beyond 2^53; null where there is none. */
function stampBetween(bytes, from, to) {
  for (const reader of [narrowStamps, wideStamps]) {
    try {
      reader.read(bytes, from, to);
      return reader;
    } catch (thrown) {
      if (thrown === NO_STAMP) return null;
      if (thrown !== TOO_WIDE) throw thrown;
    }
  }
  return null;
}
