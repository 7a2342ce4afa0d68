// The checks of why two events are ordered or not.
import assert from "node:assert/strict";
import { answers, exportOf, file, inWork, lists, pictureOf } from "./program.mjs";
import { opened } from "./tab.mjs";
import { BUSY, LOST_UPDATE, seeded, TOPIC, WITH_LOCK, WORKED } from "./traces.mjs";

const PAIRS = 120;

/** What the program answers about the events: the kind, the task and the predecessors of each. */
function eventsOf(reports) {
  const told = answers(reports, reports.map((_, place) => `event ${place + 1}`));
  return [null, ...told.map((reply) => {
    const [, kind, task, name, , ...preds] = reply.split(" ");
    return { kind, task, name, preds: preds.map(Number) };
  })];
}

/** How many edges a shortest way from the earlier event to the later one has; Infinity if there is none. */
function distance(events, earlier, later) {
  const far = new Map([[later, 0]]), waiting = [later];
  for (const event of waiting) {
    for (const pred of events[event].preds) {
      if (far.has(pred)) continue;
      far.set(pred, far.get(event) + 1);
      waiting.push(pred);
    }
  }
  return far.get(earlier) ?? Infinity;
}

/** The event in these that is nearest by number, or what stands for none. */
const nearest = (list, none) => list.length > 0 ? list[0] : none;

function freedomOf(events, past, one, other) {
  const both = past.get(one).filter((event) => past.get(other).includes(event));
  const around = [one, other].flatMap((event) => {
    const { task } = events[event], all = [...events.keys()].slice(1);
    const isOwn = (at) => events[at].task === task && events[at].kind !== "local";
    const start = all.filter((at) => events[at].kind === "spawn" && events[at].name === task);
    return [nearest([...all.filter((at) => at <= event && isOwn(at)).reverse(), ...start], "nothing"),
      nearest(all.filter((at) => at >= event && isOwn(at)), "nothing more")];
  });
  return [both.length > 0 ? Math.max(...both) : "nothing happened before both", ...around].map(String);
}

/** What the page says of the edge between these two. */
function wordsOf(events, pred, event) {
  const { kind, task, name } = events[event];
  if (events[pred].task === task) return `later in ${task}`;
  if (events[pred].kind === "spawn") return `in ${task}, which that started`;
  return kind === "recv" ? `receives message ${name}` : `takes in ${name}`;
}

/** Of two events that are concurrent, the synchronizations around each and the latest event before both; of two that are ordered,
 * a shortest chain of edges. Both are drawn. */
export async function why(tab) {
  await opened(tab, inWork("worked.html"));
  const all = WORKED.map((_, place) => place + 1);
  await areTold(tab, WORKED, all.flatMap((one) => all.map((other) => [one, other])));
  await opened(tab, inWork("busy.html"));
  const random = seeded(31), some = () => 1 + Math.floor(random() * BUSY.length);
  const { free, chains, longest } = await areTold(tab, BUSY, Array.from({ length: PAIRS }, () => [some(), some()]));
  assert.ok(free > 20 && chains > 20, `${free} ${chains}`);
  await isDrawn(tab, longest);
  await otherEnds(tab);
  return `${free} concurrent pairs, ${chains} ordered ones`;
}

/** The page tells of each pair what the program's answers lead to. Gives how many are concurrent and ordered, and a pair whose chain has
 * more than two steps. */
async function areTold(tab, reports, pairs) {
  const events = eventsOf(reports), asked = [...new Set(pairs.flat())];
  const past = new Map(lists(reports, "past", asked).map((list, place) => [asked[place], list])), counts = { free: 0, chains: 0 };
  const shown = await tab.run((list) => list.map(([one, other]) => {
    page.chooseNothing();
    page.chooseNothing();
    page.choose(one);
    page.choose(other, { asOther: true });
    const words = (part) => part.querySelector("button")?.dataset.event ?? part.textContent;
    const told = (selector) => [...document.querySelectorAll(selector)].map(words);
    const said = [...document.querySelectorAll("#chain li span")].map((part) => part.textContent);
    return { freedom: told("#freedom dd"), steps: told("#chain li"), said, chains: page.view.chains };
  }), pairs);
  pairs.forEach(([one, other], place) => {
    const { freedom, steps, said, chains } = shown[place], what = `${one} and ${other}`;
    if (one === other) return;
    const [earlier, later] = [Math.min(one, other), Math.max(one, other)], edges = distance(events, earlier, later);
    if (edges === Infinity) {
      assert.deepEqual([freedom, steps], [freedomOf(events, past, one, other), []], what);
      assert.deepEqual(chains.map((chain) => chain.includes(one) || chain.includes(other)), [true, true], what);
      counts.free++;
      return;
    }
    const [chain] = chains;
    assert.deepEqual([freedom, chain[0], chain.at(-1), chain.length - 1], [[], earlier, later, edges], what);
    for (let step = 1; step < chain.length; step++) assert.ok(events[chain[step]].preds.includes(chain[step - 1]), `${what}: ${chain}`);
    assert.deepEqual([steps[0], steps.at(-1)], [String(earlier), String(later)]);
    assert.ok(steps.every((step) => chain.includes(Number(step))), what);
    const preds = new Map(chain.map((event, at) => [String(event), chain[at - 1]]));
    assert.deepEqual(said, steps.slice(1).map((step) => wordsOf(events, preds.get(step), Number(step))), what);
    const isLeftOut = (event) => !steps.includes(String(event));
    assert.ok(chain.filter(isLeftOut).every((event) => events[event].task === events[chain[chain.indexOf(event) + 1]].task), what);
    counts.chains++;
  });
  return { ...counts, longest: pairs[shown.findIndex(({ steps }) => steps.length > 2)] };
}

/** A broad line leads from event to event of the chain, also in the whole picture. To a task that was started it goes as the lane. */
async function isDrawn(tab, [one, other]) {
  const drawn = await tab.run((first, second) => {
    const { view } = page, lines = [];
    page.chooseNothing();
    page.chooseNothing();
    page.choose(first);
    page.choose(second, { asOther: true });
    view.whole();
    for (const step of ["moveTo", "lineTo"]) view.context[step] = (x, y) => lines.push([x, y].map(Math.round).join(" "));
    view.drawChains();
    for (const step of ["moveTo", "lineTo"]) delete view.context[step];
    const placeOf = (event) => [view.x(view.layout.times[event]), view.y(view.layout.lane(event))].map(Math.round).join(" ");
    const starts = view.chains[0].filter((event, place, chain) => page.trace.tasks[page.trace.taskOf[event]].started === chain[place - 1]);
    return [lines, view.chains[0].map(placeOf), starts.length];
  }, one, other);
  const [lines, places, starts] = drawn;
  assert.deepEqual(lines.filter((place) => places.includes(place)), places);
  assert.equal(lines.length, places.length + starts);
}

/** Beside what each event last and next had to do with others stands with whom: nobody has to follow an arrow for it. */
async function otherEnds(tab) {
  const told = async (reports, one, other, words = []) => {
    await opened(tab, pictureOf("ends_of.html", exportOf(reports), words), `#event=${one}&other=${other}`);
    return tab.run(() => [...document.querySelectorAll("#freedom dd")].slice(1).map((part) =>
      [part.querySelector(".quiet")?.textContent ?? "", part.querySelector(".quiet + button")?.textContent ?? ""].join(" ").trim()));
  };
  assert.deepEqual(await told(WORKED, 3, 4), ["", "received by 6 root", "", "sent by 5 a"]);
  assert.deepEqual(await told(LOST_UPDATE, 9, 10), ["waited for by 11 root", "waited for by 11 root", "waits for 8 alice", "waits for 8 alice"]);
  assert.deepEqual(await told(TOPIC, 10, 12), ["sent by 6 prices", "received by 14 till", "sent by 6 prices", "sent by 6 prices"]);
  assert.deepEqual(await told(["spawn root a", "local a", "end a", "local root", "send root lost"], 2, 4), ["", "waited for by nobody", "", "received by nobody"]);
  assert.deepEqual(await told(["spawn root a", "spawn root b", "spawn root c", "local root", "send root m", "recv a m", "recv b m", "local c"], 4, 8),
    ["", "received by 6 a and 1 more", "", ""]);
  const release = { event: 6, task: "alice", thing: null, kind: "send", file: "shop.py", line: 6, label: "release stock", lock: "#1 stock" };
  const journal = ["--labels", file("lock.journal", `${JSON.stringify(release)}\n`)];
  assert.deepEqual(await told([...WITH_LOCK, "local alice"], 8, 10, journal), ["released by 6 alice", "", "next acquired by 7 bob", ""]);
  assert.deepEqual(await told(WITH_LOCK.slice(0, 6), 3, 5, journal), ["", "", "", "acquired by nobody since"]);
}
