// The checks of what somebody does with the picture: searching, walking, linking and moving.
import assert from "node:assert/strict";
import { exportOf, file, inWork, pageOf, pictureOf } from "./program.mjs";
import { chosen, opened, pause, placeOf, press, text } from "./tab.mjs";
import { busy, seeded, WORKED } from "./traces.mjs";

const CONTROL = 2, SHIFT = 8;

const namedBy = (reports, keyword, word) =>
  reports.filter((report) => report.startsWith(keyword)).map((report) => report.split(" ")[word]);

export async function listsAndSearch(tab) {
  const reports = [...busy(seeded(11), 120, 8, 30), "send root lonely", "spawn root idle"];
  await opened(tab, pictureOf("lists.html", exportOf(reports)));
  const read = new Set(namedBy(reports, "recv", 2)), over = new Set(namedBy(reports, "end", 1));
  const unread = namedBy(reports, "send", 2).filter((name) => !read.has(name));
  const open = ["root", ...namedBy(reports, "spawn", 2)].filter((name) => !over.has(name));
  assert.deepEqual(await listOf(tab, "unread"), [`Messages that nobody received: ${unread.length}`, ...unread]);
  assert.deepEqual(await listOf(tab, "open"), [`Tasks that did not end: ${open.length}`, ...open]);
  await found(tab, "lonely", "Event 121");
  await found(tab, "17", "Event 17");
  await found(tab, "idle", "Event 122");
  await search(tab, "task_1");
  await press(tab, "#found li button");
  assert.equal(await text(tab, "#chosen dd:nth-of-type(2)"), "task_1");
}

const HOSTILE = "<img src=x onerror=alert(1)> read stock";

/** The labels of a journal, a line of which is cut off, are shown, found and written as text alone. */
export async function labels(tab) {
  const row = (event, label) => ({ event, task: "a", thing: null, kind: "read", file: "shop.py", line: 10 + event, label });
  const lines = [row(3, "write stock"), row(5, HOSTILE), row(3, "read price")].map((one) => JSON.stringify(one));
  await opened(tab, pageOf("labels.html", exportOf(WORKED), { labels: `${lines.join("\n")}\n{"event":6,"label":"cut` }));
  await tab.until(() => page.labels.size === 2);
  await found(tab, "write st", "Event 3");
  assert.match(await text(tab, "#chosen dl"), /^labelwrite stocksourceshop\.py:13labelread pricesourceshop\.py:13kindlocal/);
  await found(tab, "read pr", "Event 3");
  await found(tab, "onerror", "Event 5");
  assert.ok((await text(tab, "#chosen dl")).startsWith(`label${HOSTILE}source`));
  assert.equal(await tab.run(() => document.querySelectorAll("img").length), 0);
  await found(tab, "6", "Event 6");
  assert.ok((await text(tab, "#chosen dl")).startsWith("kindrecv"));
  await labelsAreClipped(tab);
}

/** A label has no more room than there is to the next marks of its lane, and is clipped there. It stands in view as a whole, and the tip has
 * all of it. */
async function labelsAreClipped(tab) {
  const row = (event, label) => JSON.stringify({ event, task: "a", thing: null, kind: "read", file: null, line: 0, label });
  const rows = [...[1, 3, 8].map((event) => row(event, `a long label that belongs to event ${event}`)), row(5, "more"), row(5, "again")];
  await opened(tab, pictureOf("long_labels.html", exportOf(WORKED), ["--labels", file("long.journal", `${rows.join("\n")}\n`)]));
  await tab.until(() => page.labels.size === 4);
  const written = await tab.run(() => {
    const { view } = page, texts = [];
    view.context.fillText = (words, x) => texts.push([words, x, x + view.context.measureText(words).width]);
    view.draw();
    delete view.context.fillText;
    const rooms = [1, 3, 5, 8].map((event) => view.roomOf(event));
    return { texts: texts.filter(([words]) => /^[1358] /.test(words)), width: view.width, rooms, scale: view.scale };
  });
  assert.deepEqual(written.texts.map(([words]) => words.replace(/ .*…$/, " …")).sort(), ["1 …", "3 …", "5 more +1", "8 …"]);
  written.texts.sort().forEach(([words, from, to], place) => {
    assert.ok(from >= 0 && to <= written.width && to - from <= written.rooms[place], `${words}: ${from} to ${to} of ${written.rooms[place]}`);
    assert.ok(written.rooms[place] <= written.scale + 1 || place === 3, `${words}: ${written.rooms}`);
  });
  assert.equal(await tab.run(() => page.eventTip(3)[0]), "a long label that belongs to event 3");
}

const TOLD = [[3, "a", "local", "touch", 11], [5, "a", "send", "put order", 12], [6, "root", "recv", "get order", 30],
  [2, "root", "spawn", "start a", 29]];
const TOUCHES = [["write", "write stock", 13], ["read", "read price", 14]];

/** The mouse over an event, an arrow or a lane shows label, place, task and number; so does the focus on an event. Comparing two
 * events shows label and place of both. */
export async function tips(tab) {
  const row = ([event, task, kind, label, line], thing = null) => ({ event, task, thing, kind, file: "/home/ann/shop.py", line, label });
  const touches = TOUCHES.map(([kind, label, line]) => row([3, "a", kind, label, line], "#1"));
  const journal = file("tips.journal", [...TOLD.map((one) => row(one)), ...touches].map((one) => `${JSON.stringify(one)}\n`).join(""));
  await opened(tab, pictureOf("tips.html", exportOf(WORKED), ["--labels", journal]));
  await tab.until(() => page.labels.size === 4);
  const shown = () => tab.run(() => {
    const { hidden, children } = document.getElementById("tip");
    return hidden ? [] : [...children].map((line) => line.textContent);
  });
  const tip = async (x, y) => {
    await tab.hover(x, y);
    return shown();
  };
  const [first, third, fifth, sixth] = [await placeOf(tab, 1), await placeOf(tab, 3), await placeOf(tab, 5), await placeOf(tab, 6)];
  assert.deepEqual(await tip(...third), ["write stock, shop.py:13", "read price, shop.py:14", "Event 3, a: local"]);
  assert.deepEqual(await tip(...first), ["Event 1, root: local"]);
  assert.deepEqual(await tip((fifth[0] + sixth[0]) / 2, (fifth[1] + sixth[1]) / 2),
    ["order", "Message m", "sent by a, event 5: put order, shop.py:12", "received by root, event 6: get order, shop.py:30"]);
  assert.deepEqual(await tip((third[0] + fifth[0]) / 2, third[1]),
    ["Task a", "started by root, event 2, shop.py:29", "3 events, 3 to 7", "ended by event 7"]);
  assert.deepEqual(await tip(sixth[0], third[1] + 100), []);
  await tab.run(() => document.getElementById("hide").focus());
  await tab.until(() => page.buttons.size === 8);
  await tab.key("Tab");
  assert.deepEqual(await shown(), ["Event 1, root: local"]);
  await tab.click(...third);
  await tab.click(...await placeOf(tab, 6), SHIFT);
  const compared = await tab.run(() => [...document.querySelectorAll("#words + ul li")].map((item) => item.textContent));
  assert.deepEqual(compared, ["3 a: write stock, shop.py:13 and 1 more", "6 root: get order, shop.py:30"]);
}

/** The title of a list, and of each item the name that it ends with. */
async function listOf(tab, id) {
  await tab.run((list) => document.getElementById(list).setAttribute("open", ""), id);
  await pause(80);
  const items = await tab.run((list) => [...document.querySelectorAll(`#${list} li`)].map((item) => item.textContent), id);
  return [await text(tab, `#${id} summary`), ...items.map((item) => item.replace(", last event", "").split(" ").at(-1))];
}

async function search(tab, sought) {
  await tab.run(() => {
    document.getElementById("search").value = "";
  });
  await press(tab, "#search");
  await tab.type(sought);
}

/** Enter leads to what is searched, and it is in view then. */
async function found(tab, sought, title) {
  await search(tab, sought);
  await tab.key("Enter");
  assert.equal(await chosen(tab), title);
  const isInView = await tab.run(() => {
    const { view } = page, x = view.x(view.layout.times[view.chosen]), y = view.y(view.layout.lane(view.chosen));
    return x > 0 && x < view.width && y > 0 && y < view.height;
  });
  assert.ok(isInView, `${title} is in view`);
}

/** Tab reaches the events in view, arrows walk along the task and along edges, and a screen reader is told what stands where. */
export async function keyboard(tab) {
  await opened(tab, inWork("worked.html"));
  await tab.run(() => document.getElementById("hide").focus());
  await tab.until(() => page.buttons.size === 8);
  const focused = () => Number(document.activeElement?.dataset?.event ?? 0);
  for (const event of [1, 2, 3]) {
    await tab.key("Tab");
    assert.equal(await tab.run(focused), event);
  }
  await tab.key("Enter");
  assert.equal(await chosen(tab), "Event 3");
  const walk = "Right 5, Down 6, Left 4, Left 2, Down 3, Up 2, Right 4, Right 6, Up 5, Right 7, Right 7, Down 8, Up 7";
  for (const [arrow, event] of walk.split(", ").map((step) => step.split(" "))) {
    await tab.key(`Arrow${arrow}`);
    assert.deepEqual([await tab.run(focused), await chosen(tab)], [Number(event), `Event ${event}`], `${arrow} ${event}`);
  }
  const spoken = await tab.spokenButtons();
  for (const name of ["Event 5, a sends m, follows 3, in the past of event 7", "Event 7, a ends, follows 5, chosen",
    "Event 6, root receives m, follows 4 and 5, concurrent with event 7",
    "Event 8, root joins a, follows 6 and 7, event 7 could influence it"]) assert.ok(spoken.includes(name), name);
  await tab.key("Escape");
  assert.match(await text(tab, "#chosen"), /^Choose an event/);
}

/** The address says what is chosen, and leads there again. */
export async function address(tab) {
  const time = () => document.getElementById("time").value;
  await opened(tab, inWork("worked.html"), "#event=6&other=4&time=number");
  assert.deepEqual([await chosen(tab), await text(tab, "#words"), await tab.run(time)],
    ["Event 6", "Event 6 happened after event 4.", "number"]);
  const times = () => [3, 4, 8].map((event) => page.view.layout.times[event]);
  assert.deepEqual(await tab.run(times), [3, 4, 8]);
  await tab.click(...await placeOf(tab, 3));
  await tab.click(...await placeOf(tab, 4), SHIFT);
  assert.equal(await text(tab, "#words"), "Event 3 and event 4 are concurrent: nothing kept them in order.");
  assert.equal(await tab.run(() => location.hash), "#event=3&other=4&time=number");
  await tab.run(() => {
    location.hash = "#event=8";
  });
  await tab.frame();
  assert.deepEqual([await chosen(tab), await tab.run(time), ...await tab.run(times)], ["Event 8", "chain", 3, 3, 6]);
  await tab.run(() => {
    location.hash = "#time=chain";
  });
  await tab.frame();
  assert.match(await text(tab, "#chosen"), /^Choose an event/);
  for (const hash of ["#event=9", "#event=9&other=2", "#event=-1", "#event=<b>", "#event=1e0&other=2", "#%"]) {
    await opened(tab, inWork("worked.html"), hash);
    assert.match(await text(tab, "#chosen"), /^Choose an event/);
  }
  await tab.click(...await placeOf(tab, 1));
  await press(tab, "#pair");
  await tab.click(...await placeOf(tab, 8));
  assert.equal(await text(tab, "#words"), "Event 1 happened before event 8.");
}

const where = (tab) => tab.run(() => ({ left: page.view.left, scale: page.view.scale }));
const timeAt = ({ left, scale }, x) => left + x / scale;
const near = (one, other, what) => assert.ok(Math.abs(one - other) < 1e-6, `${what}: ${one} and ${other}`);

/** The wheel, a drag and fingers move and zoom the picture; what is below the pointer or between the fingers stays there. */
export async function moving(tab, phone) {
  await opened(tab, inWork("busy.html"));
  await tab.run(() => page.view.zoom(4));
  const start = await where(tab);
  await tab.wheel(500, 400, 120, 0);
  const wheeled = await where(tab);
  near(timeAt(start, 120), wheeled.left, "the wheel pans");
  await tab.wheel(500, 400, 0, -120, CONTROL);
  const zoomed = await where(tab);
  assert.ok(zoomed.scale > wheeled.scale);
  near(timeAt(wheeled, 500), timeAt(zoomed, 500), "the wheel zooms at the pointer");
  await tab.drag(600, 400, 500, 400);
  near(timeAt(zoomed, 100), (await where(tab)).left, "dragging pans");
  assert.equal(await tab.run(() => page.view.chosen), 0);
  await press(tab, "#fit");
  const isWhole = () => page.view.left <= 1 && page.view.x(page.view.layout.columns) <= page.view.width;
  assert.ok(await tab.run(isWhole));
  await fingers(phone);
}

// The first event whose mark lies in the window.
async function firstInView(phone) {
  const [width, height] = await phone.run(() => [innerWidth, innerHeight]);
  for (const event of await phone.run(() => [...page.buttons.keys()].sort((one, other) => one - other))) {
    const [x, y] = await placeOf(phone, event);
    if (x > 0 && x < width && y > 0 && y < height) {
      return event;
    }
  }
  assert.fail("no event is in view");
}

async function fingers(phone) {
  await opened(phone, inWork("busy.html"));
  await phone.run(() => page.view.zoom(4));
  const start = await where(phone);
  await phone.touch([[[300, 300]], [[280, 300]], [[200, 300]]]);
  const panned = await where(phone);
  near(timeAt(start, 100), panned.left, "a finger pans");
  await phone.touch([[[150, 300], [250, 300]], [[130, 300], [270, 300]], [[140, 300], [260, 300]]]);
  const pinched = await where(phone);
  near(pinched.scale / panned.scale, 1.2, "two fingers zoom");
  near(timeAt(panned, 200), timeAt(pinched, 200), "two fingers zoom between them");
  await phone.until(() => page.buttons.size > 3);
  const event = await firstInView(phone);
  await phone.touch([[await placeOf(phone, event)]]);
  assert.equal(await chosen(phone), `Event ${event}`);
}
