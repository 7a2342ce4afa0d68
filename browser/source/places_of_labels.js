// Places that are taken by labels

/** Rectangles that labels have taken, so that no two stand on one another. */
class Labels {
  constructor() {
    this.sides = new Float64Array(4 * (MOST_LABELS + MOST_MARKS));
    this.count = 0;
  }

  clear() {
    this.count = 0;
  }

  isFree(x, y, width, height) {
    const { sides, count } = this;
    for (let at = 0; at < 4 * count; at += 4) {
      if (x < sides[at + 2] && x + width > sides[at] && y < sides[at + 3] && y + height > sides[at + 1]) return false;
    }
    return 4 * count < sides.length;
  }

  take(x, y, width, height) {
    if (4 * this.count >= this.sides.length) return;
    this.sides.set([x, y, x + width, y + height], 4 * this.count);
    this.count++;
  }
}
