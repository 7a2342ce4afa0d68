// The shapes of marks

/** Adds the mark of an event's kind to the path: a dot, triangles up and down, a disc, a ring and a square. */
function addMark(context, kind, x, y, radius) {
  const side = radius * 0.95;
  if (kind === LOCAL) addDisc(context, x, y, radius * 0.6);
  if (kind === SEND || kind === RECV) addDisc(context, x, y, radius);
  if (kind === RECV) addDisc(context, x, y, radius * 0.5);
  if (kind === END) context.rect(x - side, y - side, 2 * side, 2 * side);
  if (kind === SPAWN || kind === JOIN) {
    const tip = kind === SPAWN ? -1.15 * radius : 1.15 * radius;
    context.moveTo(x, y + tip);
    context.lineTo(x + 1.1 * radius, y - tip * 0.75);
    context.lineTo(x - 1.1 * radius, y - tip * 0.75);
    context.closePath();
  }
}

function addDisc(context, x, y, radius) {
  context.moveTo(x + radius, y);
  context.arc(x, y, radius, 0, 7);
  context.closePath();
}

/** Adds the shape that is behind a mark: pointing left for the past, right for what could be influenced, a diamond for what is
 * concurrent, and a disc for the chosen event. */
function addStanding(context, standing, x, y, radius) {
  if (standing === ITSELF) {
    addDisc(context, x, y, radius);
    return;
  }
  if (standing === CONCURRENT) {
    context.moveTo(x - radius, y);
    context.lineTo(x, y - radius);
    context.lineTo(x + radius, y);
    context.lineTo(x, y + radius);
  } else {
    const tip = standing === PAST ? -radius : radius;
    context.moveTo(x + tip * 1.1, y);
    context.lineTo(x, y - radius * 0.85);
    context.lineTo(x - tip * 0.8, y - radius * 0.85);
    context.lineTo(x - tip * 0.8, y + radius * 0.85);
    context.lineTo(x, y + radius * 0.85);
  }
  context.closePath();
}
