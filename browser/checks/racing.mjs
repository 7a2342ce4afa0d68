// The checks of the panel of races: from a list of races to the two events and their lines of source.
import assert from "node:assert/strict";
import { exportOf, file, pageOf, pictureOf } from "./program.mjs";
import { chosen, opened, placeOf, press, text } from "./tab.mjs";
import { LOST_UPDATE, WITH_LOCK } from "./traces.mjs";

const SOURCE = ["def buy(shop):", "    left = shop.stock", "    shop.stock = left - 1"];

/** The row of one touch: in buy, which begins in line 10 of shop.py. */
export const side = (event, task, kind, line) =>
  ({ event, task, kind, file: "/home/ann/shop.py", line, function: "buy", begin: 10, text: SOURCE });

export const race = (thing, sides, more = {}) =>
  ({ thing, made: "", possible: false, why: "nothing orders them", times: 1, sides, ...more });

export const rows = (list) => list.map((row) => `${JSON.stringify(row)}\n`).join("");

export const pictureOfRaces = (name, reports, races, words = []) =>
  pictureOf(`${name}.html`, exportOf(reports), ["--races", file(`${name}.races`, rows(races)), ...words]);

const RACES = [race("stock", [side(4, "alice", "read", 11), side(7, "bob", "write", 12)], { made: "a Shop made at shop.py:3", times: 3 }),
  race("price", [side(6, "alice", "write", 12), side(7, "bob", "write", 12)], { possible: true, why: "the hand-over of a lock" })];

/** The panel lists each race with its thing, places and times. Choosing one shows both events, marks them as a pair, and shows the
 * lines of source around both. */
export async function races(tab) {
  await opened(tab, pictureOfRaces("races", LOST_UPDATE, RACES));
  assert.equal(await text(tab, "#races h2"), "1 race, 1 possible race");
  const listed = await tab.run(() => [...document.querySelectorAll("#races li button")].map((button) =>
    [...button.children].map((part) => part.textContent)));
  assert.deepEqual(listed, [["stock", "read shop.py:11, write shop.py:12", "alice, bob; 3 times"],
    ["price", "write, write shop.py:12 in buy", "possible; alice, bob; once"]]);
  await press(tab, "#races li:nth-child(2) button");
  await press(tab, "#races li:nth-child(1) button");
  assert.deepEqual([await chosen(tab), await text(tab, "#reason")], ["Race on stock", "Nothing orders them."]);
  const sides = await tab.run(() => [...document.querySelectorAll("#sides button")].map((button) => button.textContent));
  assert.deepEqual(sides, ["alice reads shop.py:11 in buy: event\u00a04", "bob writes shop.py:12 in buy: event\u00a07"]);
  assert.match(await text(tab, "#chosen"), /Seen 3 times, on a Shop made at shop\.py:3/);
  assert.equal(await tab.run(() => location.hash), "#event=4&other=7");
  const sources = await tab.run(() => [...document.querySelectorAll("#chosen figure")].map((figure) =>
    [figure.firstChild.textContent, figure.lastChild.textContent, figure.querySelector("strong").textContent]));
  const shown = (line) => SOURCE.map((text, place) => `${10 + place === line ? ">" : " "} ${10 + place}  ${text}\n`).join("");
  assert.deepEqual(sources, [["alice: read at /home/ann/shop.py:11", shown(11), "> 11      left = shop.stock"],
    ["bob: write at /home/ann/shop.py:12", shown(12), "> 12      shop.stock = left - 1"]]);
  await pairIsMarked(tab, [4, 7]);
  await press(tab, "#fit");
  await pairIsMarked(tab, [4, 7]);
  assert.deepEqual(await pressed(tab), ["true", "false"]);
  await tab.click(...await placeOf(tab, 7));
  assert.deepEqual([await chosen(tab), await tab.run(() => location.hash)], ["Race on stock", "#event=7&other=4"], "the other event of a race");
  await press(tab, "#races li:nth-child(2) button");
  assert.deepEqual([await chosen(tab), ...await pressed(tab)], ["Possible race on price", "false", "true"]);
  const once = await tab.run(() => [...document.querySelectorAll("#chosen figcaption")].map((words) => words.textContent));
  assert.deepEqual(once, ["alice: write, bob: write at /home/ann/shop.py:12"], "both touches of one line have it once");
  await opened(tab, pictureOfRaces("races", LOST_UPDATE, RACES), "#event=7&other=4");
  assert.deepEqual([await chosen(tab), ...await pressed(tab)], ["Race on stock", "true", "false"]);
  await tab.key("Escape");
  assert.deepEqual([await chosen(tab), ...await pressed(tab)], ["Event 7", "false", "false"]);
  assert.ok((await tab.spokenButtons()).some((name) => name.startsWith("stock read shop.py:11, write shop.py:12 alice, bob")));
  await lineIsWhole(tab);
  await locksAreTold(tab);
}

/** Whether a lock was held tells why it kept nothing in order. Nothing is said where the journal does not tell it of both sides. */
async function locksAreTold(tab) {
  const row = (event, task, kind, line, held = undefined) =>
    ({ event, task, thing: "#1", name: "stock", kind, file: "/home/ann/shop.py", line, label: `${kind} stock`, held });
  const lock = ["#2 lock (/home/ann/shop.py:4)"], read = row(4, "alice", "read", 11), write = row(7, "bob", "write", 12);
  const held = async (journal) => {
    await opened(tab, pictureOfRaces("held", LOST_UPDATE, [RACES[0]], ["--labels", file("held.journal", rows(journal))]));
    return text(tab, "#held");
  };
  assert.equal(await held([{ ...read, held: lock }, write]), "alice held lock (shop.py:4); bob held no lock.");
  assert.equal(await held([{ ...read, held: [...lock, "#1 gate"] }, { ...write, held: ["#1 door"] }]), "alice held gate, lock (shop.py:4); bob held door.");
  for (const journal of [[read, write], [{ ...read, held: lock }], [{ ...read, held: lock }, read, write], [{ ...read, held: 7 }, { ...write, held: [7, null] }]]) {
    assert.equal(await held(journal), "", JSON.stringify(journal));
  }
}

/** The line that races is read as a whole, also if it is long: only those around it are scrolled. */
async function lineIsWhole(tab) {
  const long = (one) => ({ ...one, text: SOURCE.map((line) => `${line}  # ${"and so on, ".repeat(9)}`) });
  const sides = [long(side(4, "alice", "read", 11)), long(side(7, "bob", "write", 12))];
  await opened(tab, pictureOfRaces("long_line", LOST_UPDATE, [race("stock", sides)]));
  const beyond = await tab.run(() => [...document.querySelectorAll("#chosen pre")].map((lines) => {
    const { right } = lines.getBoundingClientRect(), isBeyond = (part) => [...part.getClientRects()].some((box) => box.right > right);
    return [isBeyond(lines.querySelector("strong")), isBeyond(lines.querySelector("span"))];
  }));
  assert.deepEqual(beyond, [[false, true], [false, true]]);
}

const lockSide = (event, task, kind, line) => ({ ...side(event, task, kind, line), kind });

const DEADLOCKS = [race("one and other", [lockSide(4, "alice", "holds one", 10), lockSide(4, "alice", "wants other", 11),
  lockSide(7, "bob", "holds other", 11), lockSide(7, "bob", "wants one", 12)],
{ kind: "possible deadlock", possible: true, made: "made at shop.py:3", why: "nothing but locks orders them" }), RACES[0]];

/** A deadlock is chosen at opening as a race is: its cycle, each line of source, and the acquisitions in the picture. */
export async function deadlocks(tab) {
  await opened(tab, pictureOfRaces("deadlocks", LOST_UPDATE, DEADLOCKS));
  assert.equal(await text(tab, "#races h2"), "1 race, 1 possible deadlock");
  assert.deepEqual([await chosen(tab), await text(tab, "#reason")], ["Possible deadlock on one and other", "Nothing but locks orders them."]);
  const sides = await tab.run(() => [...document.querySelectorAll("#sides button")].map((button) => button.textContent));
  assert.deepEqual(sides, ["alice holds one at shop.py:10 in buy: event\u00a04", "alice wants other at shop.py:11 in buy: event\u00a04",
    "bob holds other at shop.py:11 in buy: event\u00a07", "bob wants one at shop.py:12 in buy: event\u00a07"]);
  const sources = await tab.run(() => [...document.querySelectorAll("#chosen figure")].map((figure) => figure.querySelector("strong").textContent));
  assert.deepEqual(sources, ["> 10  def buy(shop):", "> 11      left = shop.stock", "> 11      left = shop.stock", "> 12      shop.stock = left - 1"]);
  await pairIsMarked(tab, [4, 7]);
  assert.equal(await tab.run(() => page.labelInPicture(4)), "holds one, wants other");
  assert.equal(await tab.run(() => page.labelInPicture(7)), "holds other, wants one");
  const listed = await tab.run(() => document.querySelector("#races li button .quiet").textContent);
  assert.equal(listed, "possible deadlock; alice, bob; once");
  assert.match(await text(tab, "#legend"), /chosen ?race or deadlock/);
  await tab.key("n");
  assert.deepEqual([await chosen(tab), await text(tab, "#reason")], ["Race on stock", "Nothing orders them."]);
  await tab.key("p");
  assert.equal(await chosen(tab), "Possible deadlock on one and other");
  await tab.run((list) => page.openRaces(list), rows([{ ...DEADLOCKS[0], kind: "deadlock", possible: false, confirmed: true }, RACES[0]]));
  assert.equal(await text(tab, "#races h2"), "1 race, 1 confirmed deadlock");
  const spoilt = [{ ...DEADLOCKS[0], sides: DEADLOCKS[0].sides.slice(1) }, { ...DEADLOCKS[0], sides: [] }, { ...RACES[0], sides: DEADLOCKS[0].sides },
    { ...DEADLOCKS[0], sides: Array(17).fill(DEADLOCKS[0].sides).flat() }];
  for (const one of spoilt) {
    await tab.run((list) => page.openRaces(list), rows([one]));
    assert.equal(await tab.run(() => page.races.length), 0);
  }
}

const pressed = (tab) => tab.run(() =>
  [...document.querySelectorAll("#races li button")].map((button) => button.getAttribute("aria-pressed")));

/** A line of the colour of races leads from the one event to the other, and both have a ring of it. */
async function pairIsMarked(tab, events) {
  const marked = await tab.run((pair) => {
    const { view } = page;
    const colourAt = (x, y) => {
      const near = view.context.getImageData(Math.round(x * view.ratio) - 3, Math.round(y * view.ratio) - 3, 7, 7).data;
      return Array.from({ length: 49 }, (_, place) => [...near.subarray(4 * place, 4 * place + 3)]);
    };
    const isRed = ([red, green, blue]) => red > 150 && green < 80 && blue < 90;
    const [one, other] = pair.map((event) => [view.x(view.layout.times[event]), view.y(view.layout.lane(event))]);
    view.draw();
    const along = (part) => [one[0] + (other[0] - one[0]) * part, one[1] + (other[1] - one[1]) * part];
    const parts = Array.from({ length: 41 }, (_, place) => along(0.3 + place / 100));
    const ring = (place) => colourAt(place[0], place[1] - Math.max(6, view.radius * 2.3)).some(isRed);
    return [parts.filter((place) => colourAt(...place).some(isRed)).length > 20, ring(one), ring(other)];
  }, events);
  assert.deepEqual(marked, [true, true, true]);
}

const HOSTILE = '</script><img src=x onerror="window.wasRead = 1"><script>window.wasRead = 1</script>';

/** What looks like HTML is text in every place of a race, and a row that is none or of another trace is passed over. */
export async function hostileRaces(tab) {
  const evil = { ...side(4, HOSTILE, HOSTILE, 11), file: HOSTILE, function: HOSTILE, text: [HOSTILE, HOSTILE] };
  const right = race(HOSTILE, [evil, side(7, "bob", "write", 12)], { made: HOSTILE, why: HOSTILE });
  const others = [{ event: 12 }, { event: 0 }, { event: 1.5 }, { text: [1] }, { text: Array(41).fill("") }].map((more) => ({ ...evil, ...more }));
  const wrong = [...[null, ...others].map((other) => ({ ...right, sides: [evil, other] })), { ...right, sides: [evil] },
    { ...right, times: "1" }, { ...right, thing: null }, [], null, 1, "x"];
  const path = pageOf("hostile_races.html", exportOf(LOST_UPDATE), { carriedRaces: rows([...wrong, right]) });
  await opened(tab, path);
  assert.equal(await tab.run(() => page.races.length), 1);
  assert.equal(await chosen(tab), `Race on ${HOSTILE}`);
  assert.equal(await text(tab, "#title"), `1 race in ${HOSTILE.slice(HOSTILE.lastIndexOf("/") + 1)}`);
  assert.ok((await text(tab, "#chosen figure pre")).includes(HOSTILE));
  assert.deepEqual(await tab.run(() => [document.querySelectorAll("img").length, window.wasRead ?? "nothing"]), [0, "nothing"]);
  await opened(tab, pageOf("spoilt_races.html", exportOf(LOST_UPDATE), { carriedRaces: '{"thing":\n\u0000\n' }));
  assert.deepEqual(await tab.run(() => [page.races.length, document.getElementById("races").hidden]), [0, true]);
}

const journalRow = (event, task, kind, label, more = {}) =>
  ({ event, task, thing: null, kind, file: "shop.py", line: event, label, ...more });

/** With a journal, a lock that nobody took again is no message that nobody received, and a process that ended is no task that did
 * not end. */
export async function ends(tab) {
  const reports = [...WITH_LOCK, "send bob stock_2", "send bob letter"], lock = { lock: "#1 stock" };
  const journal = [journalRow(2, "root", "spawn", "start process alice"), journalRow(6, "alice", "send", "release stock", lock),
    { end: true },
    journalRow(3, "root", "spawn", "start process bob"), journalRow(10, "bob", "send", "release stock", lock),
    journalRow(11, "bob", "send", "put letter")];
  const shown = async (more) => {
    const words = ["--labels", file("ends.journal", rows([...journal, ...more]))];
    await opened(tab, pictureOf("ends.html", exportOf(reports), words));
    await tab.until(() => page.labels.size === 5);
    return tab.run(() => ["unread", "free", "open"].map((id) => [...document.getElementById(id)?.querySelectorAll("summary, li") ?? []]
      .map((part) => part.textContent)));
  };
  const whole = { end: true, task: null };
  const [unread, free, open] = await shown([whole]);
  assert.deepEqual([unread[0], free[0]], ["Messages that nobody received: 1", "Locks that nobody took again: 1"]);
  assert.match(open[0], /: 2$/);
  assert.deepEqual(await tab.run(() => page.tasks().filter(({ isOver }) => isOver).map(({ name }) => name)), ["alice"]);
  const [, , all] = await shown([{ end: true }, whole]);
  assert.deepEqual(all, ["Tasks that did not end: 0"]);
  assert.ok(await tab.run(() => page.view.layout.to.every((to) => to !== Infinity)), "each lane ends");
  assert.equal(await tab.run(() => page.view.layout.lanes), 3, "processes that ended share no lane");
  const [, , named] = await shown([{ end: true, task: "bob" }]);
  assert.deepEqual(named, ["Tasks that did not end: 0"]);
}
