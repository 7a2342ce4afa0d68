// The checks of the SVG: it has what the picture has, is well formed, and makes nothing of what looks like XML.
import assert from "node:assert/strict";
import { existsSync, mkdirSync, readFileSync } from "node:fs";
import { exportOf, file, inWork, pictureOf } from "./program.mjs";
import { race, rows, side } from "./racing.mjs";
import { opened, pause, press } from "./tab.mjs";
import { LOST_UPDATE } from "./traces.mjs";

const HOSTILE = '</text><script>window.wasRead = 1</script> & " \u0001 ]]> \ud83d';

/** Reads an SVG as XML, in a page without this page's policy: the texts, the numbers of elements, and whether it is well formed. */
const read = (tab, svg) => tab.run((text) => {
  const { documentElement } = new DOMParser().parseFromString(text, "image/svg+xml");
  const all = [...documentElement.querySelectorAll("*")], counts = {};
  for (const { localName } of all) counts[localName] = (counts[localName] ?? 0) + 1;
  return { counts, texts: all.filter(({ localName }) => localName === "text").map((part) => part.textContent),
    said: documentElement.querySelector("desc")?.textContent, box: documentElement.getAttribute("viewBox") };
}, svg);

/** The button saves what is shown: the same shapes and texts as are on the canvas, with the race that is chosen and what is hidden. */
export async function svg(tab) {
  const label = { event: 4, task: "alice", thing: "#1", kind: "read", file: "a.py", line: 1, label: HOSTILE };
  const journal = file("svg.journal", rows([label]));
  const races = file("svg.races", rows([race(HOSTILE, [side(4, "alice", "read", 11), side(7, "bob", "write", 12)])]));
  await opened(tab, pictureOf("svg.html", exportOf(LOST_UPDATE), ["--labels", journal, "--races", races]), "#event=4&other=7");
  mkdirSync(inWork("saved"), { recursive: true });
  await tab.browser.send("Browser.setDownloadBehavior", { behavior: "allow", downloadPath: inWork("saved") });
  await press(tab, "#save");
  for (let tries = 0; tries < 200 && !existsSync(inWork("saved/picture.svg")); tries++) await pause(50);
  const saved = readFileSync(inWork("saved/picture.svg")).toString();
  const { onCanvas, made, size } = await tab.run(() => {
    const { view } = page, texts = [], counts = { path: 0, rect: 0 };
    for (const [call, name] of [["fill", "path"], ["stroke", "path"], ["fillRect", "rect"]]) view.context[call] = () => counts[name]++;
    view.context.fillText = (text) => texts.push(text);
    view.draw();
    for (const call of ["fill", "stroke", "fillRect", "fillText"]) delete view.context[call];
    view.draw();
    return { onCanvas: { texts, counts }, made: page.svg(), size: `0 0 ${view.width} ${view.height}` };
  });
  assert.equal(saved, made);
  await tab.navigate("about:blank");
  const { counts, texts, said, box } = await read(tab, saved), { script, parsererror, rect, path } = counts;
  const told = HOSTILE.replace("\u0001", "\ufffd").replace("\ud83d", "\ufffd");
  assert.deepEqual([script, parsererror, box], [undefined, undefined, size]);
  assert.deepEqual(texts, onCanvas.texts.map((text) => text.replace(HOSTILE, told)));
  assert.ok(texts.some((text) => text.startsWith(`4 read ${told.slice(0, 30)}`)), texts.join());
  assert.equal(rect, onCanvas.counts.rect);
  assert.ok(path > 12 && path <= onCanvas.counts.path, `${path} of ${onCanvas.counts.path}`);
  assert.equal(said, "11 events, 3 tasks, 0 messages, 12 edges. Checked: 11 lines of the export, all right. "
    + "Event 4 and event 7 are concurrent: nothing kept them in order. Nothing is hidden.");
  assert.ok(saved.includes('stroke-dasharray="7 5"') && saved.includes("#b00020"), "the pair is marked");
  assert.equal(await tab.run(() => window.wasRead ?? "nothing"), "nothing");
}
