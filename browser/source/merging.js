// Merging the trees of two stamps

/** At each point the greater of two trees: its least values, and the places behind each node, as a reader leaves them. */
class MergedTree {
  constructor(one, other) {
    Object.assign(this, { one, other, low: [], end: [] });
    this.merge(0, 0);
  }

  /** Adds what is the greater of both below these nodes, and gives its place. A half that is nowhere less than the other is taken whole. */
  merge(node, otherNode) {
    const { one, other, low, end } = this, place = low.length;
    if (one.low[node] >= other.high[otherNode]) return this.copy(one, node);
    if (other.low[otherNode] >= one.high[node]) return this.copy(other, otherNode);
    low.push(0);
    end.push(0);
    const left = this.merge(halfOf(one, node, 0), halfOf(other, otherNode, 0));
    const right = this.merge(halfOf(one, node, 1), halfOf(other, otherNode, 1));
    low[place] = low[left] < low[right] ? low[left] : low[right];
    if (isLeaf(this, left) && isLeaf(this, right) && low[left] === low[right]) low.length = end.length = place + 1;
    end[place] = low.length;
    return place;
  }

  copy(tree, node) {
    const place = this.low.length;
    for (let at = node; at < tree.end[node]; at++) {
      this.low.push(tree.low[at]);
      this.end.push(tree.end[at] - node + place);
    }
    return place;
  }

  /** The text of a node, whose number counts from this base. */
  text(node, base) {
    const { low, end } = this, number = low[node] - base;
    if (isLeaf(this, node)) return `${number}`;
    return `(${number},${this.text(node + 1, low[node])},${this.text(end[node + 1], low[node])})`;
  }
}

/** The text of the trees of two stamps merged, from the semicolon on. Null if one of them is no stamp. */
function mergedTrees(...stamps) {
  for (const reader of [narrowStamps, wideStamps]) {
    try {
      const [one, other] = stamps.map((stamp) => {
        reader.read(stamp, 0, stamp.length);
        return keptTree(reader);
      });
      return new TextEncoder().encode(`;${new MergedTree(one, other).text(0, reader.number(0))}]`);
    } catch (thrown) {
      if (thrown === NO_STAMP) return null;
      if (thrown !== TOO_WIDE) throw thrown;
    }
  }
  return null;
}
