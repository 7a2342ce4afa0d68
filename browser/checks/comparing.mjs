// The checks of two runs side by side.
import assert from "node:assert/strict";
import { exportOf, file, pictureOf } from "./program.mjs";
import { opened, press, text } from "./tab.mjs";
import { LOST_UPDATE, WITH_LOCK } from "./traces.mjs";

const HOSTILE = "<img src=x onerror=alert(1)>.export";
const row = (event, task, label, more = {}) =>
  `${JSON.stringify({ event, task, thing: "stock", kind: "write", file: "shop.py", line: 7, label, ...more })}\n`;

async function pickedBeside(tab, path, done) {
  await tab.pick("#besideFile", path);
  await tab.until(done);
  await tab.frame();
}

/** Another run stands below the first: lanes of one name are side by side, both move together, and the page says how the events
 * stand there that are chosen here. */
export async function beside(tab) {
  await opened(tab, pictureOf("beside.html", exportOf([...LOST_UPDATE, "spawn root carol"])), "#event=6&other=7");
  assert.equal(await text(tab, "#words"), "Event 6 and event 7 are concurrent: nothing kept them in order.");
  const fixed = exportOf([...WITH_LOCK, "spawn root dave", "local dave"]);
  await pickedBeside(tab, file("fixed.export", fixed), () => page.beside.verdict.startsWith("Checked"));
  assert.deepEqual([await text(tab, "#aboutBeside h2"), await text(tab, "#besideVerdict"), await text(tab, "#besideWords")],
    ["Beside: fixed.export", "11 events. Checked: 11 lines of the export, all right.", "Event 5 happened before event 9."]);
  const lanes = await tab.run(() => [[page.trace, page.view], [page.beside.trace, page.beside.view]].map(([trace, { layout }]) =>
    trace.tasks.map(({ name }, place) => `${name} ${layout.laneOf[place]}`)));
  assert.deepEqual(lanes, [["root 0", "alice 1", "bob 2", "carol 3"], ["root 0", "alice 1", "bob 2", "dave 4"]]);
  await tab.wheel(300, 200, 200, 0);
  await tab.run(() => page.view.zoom(1.5));
  await tab.frame();
  const [first, second] = await tab.run(() => [page.view, page.beside.view].map(({ left, top, scale, width, height }) =>
    [left, top, scale, width, height]));
  assert.deepEqual(first, second);
  await tab.run(() => page.choose(2));
  assert.match(await text(tab, "#aboutBeside"), /Event 2 is event 2 there\./);
  await tab.run(() => page.choose(12));
  assert.match(await text(tab, "#aboutBeside"), /Event 12 is not there\./);
  const times = row(2, "root", "start alice", { time: 1795798400.25 }) + row(12, "dave", "none") + row(9, "bob", "write stock", { time: 1e300 });
  await pickedBeside(tab, file("fixed.journal", times), () => page.beside.labels.size === 2);
  await tab.run(() => page.openLabels('{"event":2,"task":"root","thing":"stock","kind":"write","file":"shop.py","line":7,"label":"start alice"}'));
  await tab.run(() => page.choose(2));
  assert.match(await text(tab, "#aboutBeside"), /Event 2 is event 2 there, at 2026-11-27 16:53:20\.250000 UTC\./);
  const isHostile = () => page.beside.name.startsWith("<img") && page.beside.verdict.startsWith("Checked");
  await pickedBeside(tab, file(HOSTILE, exportOf(LOST_UPDATE)), isHostile);
  assert.equal(await text(tab, "#aboutBeside h2"), `Beside: ${HOSTILE}`);
  assert.equal(await tab.run(() => document.querySelectorAll("img").length), 0);
  const wrong = exportOf(LOST_UPDATE).toString().replace("[((0,1),0);(2,(1,0,2),0)]", "[((0,1),0);(3,(0,0,2),1)]");
  await pickedBeside(tab, file("wrong.export", wrong), () => page.beside.verdict.startsWith("no 8 6."));
  const isCut = () => document.getElementById("aboutBeside").textContent.startsWith("cut.export: no 1 1.");
  await pickedBeside(tab, file("cut.export", "{"), isCut);
  assert.deepEqual(await tab.run(() => [document.getElementById("beside").hidden, page.isShown]), [true, true]);
  await press(tab, "#fit");
}
