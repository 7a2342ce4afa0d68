// The checks of what the picture shows: lanes, events, edges, and how events stand to one another.
import assert from "node:assert/strict";
import { answers, exportOf, inWork, lists, pictureOf } from "./program.mjs";
import { chosen, notice, opened, pause, placeOf } from "./tab.mjs";
import { BROADCASTS, BUSY, mostAlive, seeded, shortTasks, TOPIC, WORKED } from "./traces.mjs";

const upTo = (most) => Array.from({ length: most }, (_, place) => place + 1);

export async function workedExport(tab) {
  await opened(tab, inWork("worked.html"));
  assert.deepEqual(await tab.run(() => [page.view.layout.lanes, page.trace.events, page.trace.edges]), [2, 8, 9]);
  assert.equal(await notice(tab), "8 events, 2 tasks, 1 message, 9 edges. Checked: 8 lines of the export, all right.");
  await marksAndLines(tab);
  await names(tab);
  const events = upTo(8), past = lists(WORKED, "past", events), concurrent = lists(WORKED, "concurrent", events);
  for (const event of events) {
    await tab.click(...await placeOf(tab, event));
    assert.equal(await chosen(tab), `Event ${event}`);
    const future = events.filter((other) => past[other - 1].includes(event));
    const wanted = [past[event - 1], future, concurrent[event - 1]];
    assert.deepEqual(await listed(tab), wanted.map((list) => list.join(" ")));
    await colouredMarks(tab, wanted);
  }
  await rows(tab, WORKED, events);
  await orderOfPairs(tab, WORKED, events.flatMap((one) => events.map((other) => [one, other])));
  await layoutIsSound(tab, WORKED);
}

/** Each event has one mark, of its kind and at its place; the lines are the edges between lanes, with an arrow for a message. */
async function marksAndLines(tab) {
  const { marks, lines, heads, places } = await tab.run(() => {
    const { view } = page, shown = { marks: [], lines: [], heads: [] }, draw = addMark;
    const rounded = (...values) => values.map(Math.round), placeOf = (time, lane) => rounded(view.x(time), view.y(lane));
    addMark = (context, kind, x, y) => shown.marks.push([KINDS[kind], ...rounded(x, y)]);
    view.addHead = (edge) => shown.heads.push(view.layout.trace.nameOf[view.layout.edgeEvents[edge]]);
    for (const step of ["moveTo", "lineTo"]) view.context[step] = (x, y) => shown.lines.push(rounded(x, y));
    view.draw();
    addMark = draw;
    for (const step of ["moveTo", "lineTo"]) delete view.context[step];
    delete view.addHead;
    const { times } = view.layout, events = [1, 2, 3, 4, 5, 6, 7, 8];
    shown.places = events.map((event) => placeOf(times[event], view.layout.lane(event)));
    shown.places.push(placeOf(times[2] + 0.5, view.layout.lane(3)));
    return shown;
  });
  const byText = (list) => list.map(String).sort(), kinds = WORKED.map((report) => report.split(" ")[0]);
  assert.deepEqual(byText(marks), byText(kinds.map((kind, place) => [kind, ...places[place]])));
  assert.equal(new Set(places.map(String)).size, 9);
  // From the spawn to the beginning of a's lane, from the send to the receive, from the end to the join.
  const wanted = [[2, 9], [5, 6], [7, 8]].map((ends) => ends.map((event) => places[event - 1]).join(" to "));
  const pairs = lines.flatMap((end, place) => place % 2 === 0 ? [`${end} to ${lines[place + 1]}`] : []);
  assert.deepEqual([byText(pairs), heads], [byText(wanted), ["m"]]);
}

/** Below each mark stands its number, above each lane its task, and beside its arrow the message. */
async function names(tab) {
  const { texts, places } = await tab.run(() => {
    const { view } = page, written = [];
    view.context.fillText = (text, x, y) => written.push([text, x + text.length * view.letter / 2, y]);
    view.draw();
    delete view.context.fillText;
    const rulers = view.head;
    written.splice(0, written.length, ...written.filter(([, , y]) => y > rulers));
    const place = (_, event) => [view.x(view.layout.times[event]), view.y(view.layout.lane(event))];
    return { texts: written, places: Array.from({ length: page.trace.events + 1 }, place) };
  });
  const found = new Map(texts.map(([text, ...place]) => [text, place]));
  assert.equal(texts.length, 11);
  const isBy = (text, [x, y], aside, least, most) => {
    const [atX, atY] = found.get(text) ?? [];
    assert.ok(Math.abs(atX - x) < aside && atY - y > least && atY - y < most, `${text} is at ${atX} ${atY}, not by ${x} ${y}`);
  };
  for (let event = 1; event <= 8; event++) isBy(String(event), places[event], 2, 8, 30);
  isBy("root", places[1], 30, -40, -8);
  isBy("a", [(places[2][0] + places[3][0]) / 2, places[3][1]], 30, -40, -8);
  isBy("m", [(places[5][0] + places[6][0]) / 2, (places[5][1] + places[6][1]) / 2], 30, -20, 20);
}

/** Of no two kinds the marks have one shape, nor the shapes behind them for how events stand. */
export async function shapes(tab) {
  await opened(tab, inWork("worked.html"));
  const [kinds, standings] = await tab.run(() => {
    const isInside = (add, shape) => (x, y) => {
      const context = document.createElement("canvas").getContext("2d");
      context.beginPath();
      add(context, shape, 0, 0, 100);
      return context.isPointInPath(x, y, "evenodd");
    };
    const told = (isIn) => ({ middle: isIn(0, 0), bottom: isIn(0, 80), above: isIn(-80, -70), below: isIn(-80, 70),
      left: isIn(-105, 0), right: isIn(105, 0), corner: isIn(60, 70) });
    const words = (isIn) => Object.entries(told(isIn)).filter(([, isSo]) => isSo).map(([word]) => word).join(" ");
    return [KINDS.map((_, kind) => words(isInside(addMark, kind))),
      [PAST, FUTURE, CONCURRENT, ITSELF].map((standing) => words(isInside(addStanding, standing)))];
  });
  assert.deepEqual(kinds, ["middle", "middle bottom below corner", "middle bottom corner", "bottom corner",
    "middle bottom above below corner", "middle bottom above"]);
  assert.deepEqual(standings,
    ["middle bottom left corner", "middle bottom above below right", "middle bottom", "middle bottom corner"]);
}

/** What the panel says of each event is what the program answers to `event` and `stamp`. */
async function rows(tab, reports, events) {
  const told = answers(reports, events.map((event) => `event ${event}`));
  const stamps = answers(reports, events.map((event) => `stamp ${event}`));
  const shown = await tab.run((asked) => asked.map((event) => {
    page.choose(event);
    const values = [...document.querySelectorAll("#chosen dd")].map((value) =>
      [...value.querySelectorAll("button")].map((button) => button.textContent).join(" ") || value.textContent);
    return [...document.querySelectorAll("#chosen dt")].map((term, place) => [term.textContent, values[place]]);
  }), events);
  const named = { spawn: "starts", send: "message", recv: "message", join: "takes in" };
  const following = new Map(), receipts = receiptsIn(reports);
  answers(reports, reports.map((_, place) => `event ${place + 1}`)).forEach((reply, place) => {
    for (const pred of reply.split(" ").slice(5)) following.set(pred, [...following.get(pred) ?? [], place + 1]);
  });
  events.forEach((event, place) => {
    const [, kind, task, name, , ...preds] = told[place].split(" "), list = (numbers) => numbers.join(" ") || "nothing";
    assert.deepEqual(shown[place], [["kind", kind], ["task", task], ...(named[kind] ? [[named[kind], name]] : []),
      ...(["send", "recv"].includes(kind) ? [["received by", receipts.get(name)?.join(" ") ?? "nobody"]] : []),
      ["follows", list(preds)], ["followed by", list(following.get(String(event)) ?? [])],
      ["stamp", stamps[place].split(" ")[1]]], `event ${event}`);
  });
}

/** Of each message that was received who received it, each with his event. */
function receiptsIn(reports) {
  const receipts = new Map();
  reports.forEach((report, place) => {
    const [kind, task, message] = report.split(" ");
    if (kind === "recv") receipts.set(message, [...receipts.get(message) ?? [], `${task}, ${place + 1}`]);
  });
  return receipts;
}

/** The three lists of events that stand below the chosen one. */
async function listed(tab) {
  await tab.run(() => document.querySelectorAll("#chosen details").forEach((list) => list.setAttribute("open", "")));
  await pause(60);
  return tab.run(() => [...document.querySelectorAll("#chosen details div")].map((list) => list.textContent));
}

/** The marks of the events in each list have the list's colour: left, right and above the middle of the mark. */
async function colouredMarks(tab, wanted) {
  const { found, colours } = await tab.run((sets) => {
    const { view } = page, places = [[-0.6, 0.15], [0.6, 0.15], [0, -0.62]];
    view.draw();
    const colourAt = (x, y) => {
      const [red, green, blue] = view.context.getImageData(Math.round(x * view.ratio), Math.round(y * view.ratio), 1, 1).data;
      return `#${((1 << 24) + (red << 16) + (green << 8) + blue).toString(16).slice(1)}`;
    };
    const around = (event) => places.map(([byX, byY]) => {
      const radius = view.radius * 1.9;
      return colourAt(view.x(view.layout.times[event]) + byX * radius, view.y(view.layout.lane(event)) + byY * radius);
    });
    return { found: sets.map((set) => set.flatMap(around)), colours: COLOURS };
  }, wanted);
  found.forEach((set, place) => assert.deepEqual(new Set(set), new Set(set.length > 0 ? [colours[place + 1]] : [])));
}

/** The page says of each pair in words what the program answers. */
async function orderOfPairs(tab, reports, pairs) {
  const told = answers(reports, pairs.map(([one, other]) => `order ${one} ${other}`));
  const shown = await tab.run((asked) => asked.map(([one, other]) => {
    page.view.other = 0;
    page.choose(one);
    page.choose(other, { asOther: true });
    return document.getElementById("words").textContent;
  }), pairs);
  pairs.forEach(([one, other], place) => assert.equal(shown[place], {
    "200 same": `Both are event ${one}.`,
    "200 before": `Event ${one} happened before event ${other}.`,
    "200 after": `Event ${one} happened after event ${other}.`,
    "200 concurrent": `Event ${one} and event ${other} are concurrent: nothing kept them in order.`,
  }[told[place]]));
}

/** A message that three receive has an arrow to each of them, and is not among those that nobody received. */
export async function topic(tab) {
  await opened(tab, pictureOf("topic.html", exportOf(TOPIC)));
  assert.equal(await notice(tab), "16 events, 5 tasks, 3 messages, 19 edges. Checked: 16 lines of the export, all right.");
  const heads = await tab.run(() => {
    const { view } = page, shown = [];
    view.addHead = (edge) => shown.push(`${view.layout.trace.nameOf[view.layout.edgeEvents[edge]]} ${view.layout.edgeEvents[edge]}`);
    view.draw();
    delete view.addHead;
    return shown.sort();
  });
  assert.deepEqual(heads, ["cart_1 14", "price_1 12", "price_1 7", "price_1 8"]);
  assert.equal(await tab.run(() => document.querySelector("#unread summary").textContent), "Messages that nobody received: 1");
  await rows(tab, TOPIC, upTo(16));
  const found = await tab.run(() => page.find("price_1").map(({ event, words }) => `${event} ${words}`));
  assert.deepEqual(found, ["6 message price_1 is sent", "7 message price_1 is received by web",
    "8 message price_1 is received by till", "12 message price_1 is received by stock"]);
}

/** 200 events of a trace of 500, and 200 pairs. */
export async function busyTrace(tab) {
  await opened(tab, inWork("busy.html"));
  await eventsAndPairs(tab, BUSY);
}

/** The same of a trace with messages that many receive. */
export async function broadcasts(tab) {
  const most = Math.max(...[...receiptsIn(BROADCASTS).values()].map((receipts) => receipts.length));
  assert.equal(most, 5);
  await opened(tab, pictureOf("broadcasts.html", exportOf(BROADCASTS)));
  await eventsAndPairs(tab, BROADCASTS);
}

async function eventsAndPairs(tab, reports) {
  for (const kind of ["send", "recv", "spawn", "end", "join"]) assert.ok(reports.some((report) => report.startsWith(kind)));
  const random = seeded(20), some = () => 1 + Math.floor(random() * 500), asked = Array.from({ length: 200 }, some);
  const past = lists(reports, "past", asked), concurrent = lists(reports, "concurrent", asked);
  for (const [place, event] of asked.entries()) {
    const others = new Set([event, ...past[place], ...concurrent[place]]);
    const shown = await tab.run((sought) => {
      page.choose(sought);
      return [PAST, FUTURE, CONCURRENT].map((standing) => page.eventsStanding(standing));
    }, event);
    assert.deepEqual(shown, [past[place], upTo(500).filter((other) => !others.has(other)), concurrent[place]], `event ${event}`);
  }
  await rows(tab, reports, asked);
  await orderOfPairs(tab, reports, Array.from({ length: 200 }, () => [some(), some()]));
  await layoutIsSound(tab, reports);
}

/** 300 tasks share the lanes of a few, since each ends before the next one begins in its lane. */
export async function lanes(tab) {
  const short = shortTasks(seeded(2), 300, 8);
  await opened(tab, pictureOf("short.html", exportOf(short)));
  const behind = await layoutIsSound(tab, short);
  assert.ok(behind > 300, `${behind} tasks stand behind another one`);
}

/** Each event is at its time, so edges go forward; no two events are at one place. One behind the other in a lane are only tasks of which
 * the program says that the first one's end comes before the second one's beginning. */
async function layoutIsSound(tab, reports) {
  const { faults, pairs } = await tab.run(() => ["chain", "number"].map((time) => {
    const { trace } = page, layout = new Layout(trace, { axis: time }), found = [], places = new Set(), behind = [];
    for (let event = 1; event <= trace.events; event++) {
      const longest = 1 + Math.max(0, ...trace.preds(event).map((pred) => layout.times[pred]));
      if (layout.times[event] !== (time === "number" ? event : longest)) found.push(`${time}: event ${event} is not at its time`);
      places.add(`${layout.times[event]} ${layout.lane(event)}`);
    }
    if (places.size !== trace.events) found.push(`${time}: two events at one place`);
    layout.tasksIn.forEach((tasks, lane) => tasks.forEach((task, place) => {
      if (place === 0) return;
      if (layout.to[tasks[place - 1]] > layout.from[task]) found.push(`${time}: two tasks at once in lane ${lane}`);
      behind.push([trace.tasks[tasks[place - 1]].ended, trace.tasks[task].started]);
    }));
    return { faults: found, pairs: behind };
  }).reduce((one, other) => ({ faults: [...one.faults, ...other.faults], pairs: [...one.pairs, ...other.pairs] })));
  assert.deepEqual(faults, []);
  const told = answers(reports, pairs.map(([one, other]) => `order ${one} ${other}`));
  pairs.forEach((pair, place) => assert.match(told[place], /^200 (same|before)$/, `events ${pair} are in one lane`));
  assert.ok(await tab.run(() => new Layout(page.trace, { axis: "number" }).lanes) >= mostAlive(reports));
  return pairs.length;
}
