// The checks of journals, races and files that somebody made to do harm. Nothing in them runs, is asked for, or holds the page up.
import assert from "node:assert/strict";
import { exportOf, file, pageOf, pictureOf } from "./program.mjs";
import { race, rows, side } from "./racing.mjs";
import { chosen, notice, opened, picked, text } from "./tab.mjs";
import { LOST_UPDATE, WORKED } from "./traces.mjs";

const MARKUP = '</script><img src=x onerror="window.wasRead = 1"><script>window.wasRead = 1</script>';
const HUGE = 1e300, MANY = 400000, CLOCKS = 6000, RACES = 5000, BEGIN = 1795798400;
const MOST_SECONDS = 20;

const row = (event, more = {}) =>
  ({ event, task: MARKUP, thing: MARKUP, kind: MARKUP, file: MARKUP, line: HUGE, label: MARKUP, name: MARKUP, ...more });

/** The seconds of the processor that the page takes, which other work beside does not count. */
export async function processorSeconds(tab, act) {
  await tab.send("Performance.enable", { timeDomain: "threadTicks" });
  const used = async () => (await tab.send("Performance.getMetrics")).metrics.find(({ name }) => name === "ProcessTime").value;
  const begin = await used();
  await act();
  return await used() - begin;
}

const openedWith = async (tab, name, reports, journal) => {
  await opened(tab, pageOf(`${name}.html`, exportOf(reports), { labels: journal }));
  await tab.until(() => page.labels.size > 0);
};

/** Nothing of the text became a part of the page. */
async function nothingRan(tab) {
  const found = await tab.run(() => [document.querySelectorAll("img, iframe, object").length, window.wasRead ?? "nothing"]);
  assert.deepEqual(found, [0, "nothing"]);
}

const ABSENT = [-5, 0, 1.5, 9, 17000, HUGE, -HUGE, 2 ** 53, "4", null, [4], true];
const NO_ROWS = ["", "null", "[]", "1", '"x"', "{", '{"event":NaN,"label":"x"}', '{"event":1,"label":"x","time":NaN}', "[".repeat(200000),
  '{"a":'.repeat(100000), '{"__proto__":{"event":4},"label":"x"}', "\u0000\ufffd", '{"event":1}', '{"event":1,"label":7}'];

/** A row of no event of the trace, and a line that is no row, are passed over: in the search, the tips, the lists and the SVG. What is
 * long or odd is text. */
async function oddRows(tab) {
  const right = [row(3, { label: `stock ${"long ".repeat(200000)}` }), row(4, { time: 1e400, kind: "spawn", label: `start process ${MARKUP}` }),
    row(6, { task: "__proto__", thing: "__proto__", kind: "constructor", file: "__proto__", label: "toString", time: HUGE })];
  const journal = `${NO_ROWS.join("\n")}\n${rows([...ABSENT.map((event) => row(event)), ...right])}${'{"end":true,"task":{}}\n'}`;
  await openedWith(tab, "odd_rows", WORKED, journal);
  assert.deepEqual(await tab.run(() => [...page.labels.keys()]), [3, 4, 6]);
  assert.deepEqual(await tab.run(() => page.find("start process").map(({ event }) => event)), [4]);
  assert.equal(await tab.run(() => page.find("onerror").length), 3, "things and places are searched too");
  const told = await tab.run(() => {
    const words = [];
    for (let event = 1; event <= page.trace.events; event++) {
      page.choose(event);
      words.push(page.eventTip(event).length > 0 && document.querySelector("#chosen dl") !== null);
    }
    page.choose(3, { asOther: true });
    return [words.every((isTold) => isTold), page.svg().startsWith("<svg")];
  });
  assert.deepEqual(told, [true, true]);
  await nothingRan(tab);
}

// Each turns around what stands behind it, shows nothing, or would end a line or a text of a shell.
const UNSEEN = ["\u202e", "\u2066", "\u200f", "\u200b", "\ufeff", "\u0000", "\u0007", "\u001b", "\u007f", "\u009b", "\u2028"];
const ARABIC = "\u0645\u062e\u0632\u0646", MEBIBYTE = 2 ** 20;

/** A character that nobody sees is seen, wherever a text comes from. Text that is written from right to left stays as it is. A name of a
 * mebibyte is clipped in the picture, and the panel stays as wide as it is. */
async function oddTexts(tab) {
  const odd = `${ARABIC}${UNSEEN.join("x")}.py`, long = "long ".repeat(MEBIBYTE / 5), seen = odd.replace(/[^x.py\u0600-\u06ff]/g, "\ufffd");
  const line = { event: 4, task: odd, thing: odd, kind: "read", file: odd, line: 6, label: `read ${odd}`, name: odd };
  const touch = (event) => ({ ...side(event, odd, "read", 11), file: odd, function: odd, text: [odd, long] });
  const list = rows([race(odd, [touch(4), touch(7)], { made: odd, why: odd }), race(long, [touch(4), touch(7)], { made: long, why: long })]);
  await opened(tab, pageOf("odd_texts.html", exportOf(LOST_UPDATE), { labels: rows([line, { ...line, event: 5, label: long, file: long }]),
    carriedRaces: list, carriedAbout: JSON.stringify({ program: odd }) }));
  const told = await tab.run(() => {
    const drawn = [], { context } = page.view;
    context.fillText = (words) => drawn.push(words);
    page.view.draw();
    delete context.fillText;
    return { text: `${document.body.innerText}${document.title}${drawn.join()}${page.svg()}`, longest: Math.max(...drawn.map(({ length }) => length)),
      tip: page.eventTip(4).join() };
  });
  for (const one of UNSEEN) assert.ok(!`${told.text}${told.tip}`.includes(one), `U+${one.codePointAt(0).toString(16)}`);
  assert.ok(told.text.includes(seen) && told.tip.includes(seen), told.tip);
  assert.ok(told.longest < 200, `a text of ${told.longest} letters is drawn`);
  await tab.key("n");
  const width = await tab.run(() => {
    page.view.draw();
    return [document.documentElement.scrollWidth, window.innerWidth, document.getElementById("panel").scrollWidth, document.getElementById("panel").clientWidth];
  });
  assert.ok(width[0] <= width[1] && width[2] <= width[3], `${width}`);
  const written = await tab.run(() => document.getElementById("panel").textContent.length);
  assert.ok(written < MEBIBYTE / 10, `${written} letters are laid out`);
  await nothingRan(tab);
}

/** Many rows of one event take no longer than they are many. */
async function manyRows(tab) {
  const bare = `${JSON.stringify({ event: 1, task: "root", thing: null, kind: "local", file: null, line: 0, label: "touch" })}\n`;
  const took = await processorSeconds(tab, () => openedWith(tab, "many_rows", WORKED, bare.repeat(MANY)));
  assert.ok(took < MOST_SECONDS, `${MANY} rows of one event took ${took} s`);
  await tab.run(() => page.choose(1));
  assert.match(await text(tab, "#chosen dl"), /399988 more in the journal/);
  return `${MANY} rows of one event took ${took.toFixed(1)} s of the processor`;
}

/** Many clocks whose messages contradict one another in a circle are told as such. */
async function manyClocks(tab) {
  const reports = ["spawn root a", "spawn root b"], journal = [];
  const told = (event, clock, time) => journal.push(row(event, { kind: "spawn", label: `start process p${clock % CLOCKS}`, time }));
  for (let clock = 0; clock < CLOCKS; clock++) {
    reports.push(`send a m${clock}`, `recv b m${clock}`);
    told(reports.length - 1, clock, BEGIN + 1);
    told(reports.length, clock + 1, BEGIN);
  }
  const took = await processorSeconds(tab, () => openedWith(tab, "many_clocks", reports, rows(journal)));
  assert.ok(took < MOST_SECONDS, `${CLOCKS} clocks took ${took} s`);
  assert.match(await text(tab, "#clocks"), /its messages contradict one another/);
  assert.equal(await text(tab, "#clocks + p"), `and ${CLOCKS - 25} more`);
  return `${CLOCKS} clocks ${took.toFixed(1)} s`;
}

/** Of many races the first are listed, and each is known by its events. Odd numbers are words, and one event may race with itself. */
async function manyRaces(tab) {
  const odd = race("odd", [{ ...side(4, "alice", "read", HUGE), begin: -HUGE }, side(4, "alice", "read", -1)], { times: -HUGE });
  const last = race("last", [side(5, "alice", "write", 12), side(8, "bob", "write", 12)]), first = race("stock", [side(4, "alice", "read", 11), side(7, "bob", "write", 12)]);
  const path = pageOf("many_races.html", exportOf(LOST_UPDATE), { carriedRaces: rows([odd, ...Array(RACES - 2).fill(first), last]) });
  await opened(tab, path, "#event=8&other=5");
  await tab.until((count) => page.races.length === count, RACES);
  const listed = await tab.run(() => document.querySelectorAll("#races li").length);
  assert.deepEqual([await text(tab, "#races h2"), listed, await text(tab, "#allRaces > p")],
    [`${RACES} races`, 400, `and ${RACES - 400} more, by Next and Search`]);
  assert.deepEqual([await chosen(tab), await text(tab, "#reason")], ["Race on last", "Nothing orders them."]);
  await tab.run(() => page.chooseRace(0));
  assert.deepEqual([await chosen(tab), await text(tab, "#words")], ["Race on odd", "Both are event 4."]);
  await tab.run(() => page.view.draw());
}

/** An empty file, and one that is no export, is told as such wherever it is opened. */
async function emptyFiles(tab) {
  const empty = file("empty", ""), none = file("none", "{}\n[]\n");
  await opened(tab, pictureOf("whole.html", exportOf(WORKED)));
  for (const [path, words] of [[empty, "Beside: empty"], [none, /^none: no 1 2/]]) {
    await tab.pick("#besideFile", path);
    await tab.until((sought) => document.getElementById("aboutBeside").textContent.startsWith(sought), String(words).replace(/^\/\^|\/$/g, ""));
    assert.equal(await tab.run(() => page.isShown), true);
  }
  await picked(tab, none);
  assert.match(await notice(tab), /^none: no 1 2\./);
  await picked(tab, empty);
  assert.equal(await notice(tab), "empty: the export has no event, so nothing is drawn.");
  assert.equal(await text(tab, "#invitation"), "Nothing is drawn: the export has no event.");
}

export async function hostileFiles(tab) {
  await oddRows(tab);
  await oddTexts(tab);
  const told = [await manyRows(tab), await manyClocks(tab)];
  await manyRaces(tab);
  await emptyFiles(tab);
  return told.join(", ");
}
