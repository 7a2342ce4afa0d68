// The checks of how a page carries its export: stamps apart from lines, the picture before the check, and a worker that checks.
import assert from "node:assert/strict";
import { readFileSync } from "node:fs";
import { gzipSync } from "node:zlib";
import { exportOf, file, pictureOf, TEMPLATE, verdictOf } from "./program.mjs";
import { notice, opened, pause, picked } from "./tab.mjs";
import { BUSY, greatest, seeded, unjoined, WORKED } from "./traces.mjs";

const MOST_OPENING = 3000;
const processorTime = async (tab) => {
  const { metrics } = await tab.send("Performance.getMetrics");
  return 1000 * metrics.find(({ name }) => name === "ProcessTime").value;
};
const stampsOf = (bytes) => [...bytes.toString().matchAll(/"stamp":"([^"]*)"/g)].map((found) => found[1]);
const stampsShown = (tab) => tab.run(() => Array.from({ length: page.trace.events }, (_, place) => page.trace.stamp(place + 1)));

/** The stamps that a page carries are those of the export, also where a line is written in another way; the export of one chain is
 * packed by what it repeats. */
export async function stamps(tab) {
  const busy = exportOf(BUSY), worked = exportOf(WORKED), [header, ...lines] = worked.toString().split("\n").slice(0, -1);
  const otherwise = lines.map((line, place) => [line, line.replaceAll(":", " : "), line.replace('"stamp"', '"\\u0073tamp"'),
    line.replace("{", '{"stamp":"x",'), line.replace('"[', '"\\u005b'), line.replace('"stamp":', '"stamp":"x","stamp" : '),
    line.replace('"stamp":', '"stamp":"x","\\u0073tamp":')][place % 7]).join("\r\n");
  for (const bytes of [busy, worked, Buffer.from(lines.join("\n")), Buffer.from(otherwise), Buffer.from(`${header}\n${otherwise}`)]) {
    await opened(tab, pictureOf("stamps.html", bytes));
    assert.equal(await tab.run(() => page.verdict), verdictOf(bytes));
    assert.deepEqual(await stampsShown(tab), stampsOf(bytes === busy ? busy : worked));
  }
}

/** Rows of stamps that are spoilt are no stamps, and the page says so. */
export async function spoiltStamps(tab) {
  const html = readFileSync(pictureOf("spoilt_stamps.html", exportOf(WORKED))).toString();
  const place = /(id="stamps">)[^<]*/, right = ["-", "0 0 0 [1;1]", "1 1 1 (1,0) 1 1 2"];
  const rows = [["9 1 1 x"], ["1 1 1 x"], ["-", "1 0 0 x"], ["\u0000\u00ff"], ["-", "0 0 0 [1;1]", `1 0 0 ${"x".repeat(70000)}`], [],
    ...["1 7 9999 x", "99999999999999999999 1 1 ", "1 3", "1 1 1 )", "1 1 1 ( 1 9999 2", "1 1 1 (1,0) 1 3 2", "1 1 2 (1,0) 1 1 2",
      "1 9 9 x 1 1 2", "1 7 0 x 1 1 2", "1 1 1 2 3", "1 x 1 2", "1 -1 1 2", "1  1 2", "1 1 1 2 ", "0 1 0 x", "0 0 0 ;;", "0 0 0 0 0 0 [1;1]x",
      "1,2 9 9 x", "1,9 0 0 ", "0,1 0 0 ", "1,0 0 0 ", "1, 0 0 ", ",1 0 0 ", "1,1,1 0 0 ", "1,-1 0 0 ", "1,2 0 0 ;"].map((row) => [...right, row]),
    ...["[1;x]", "[1;(0,0,0)]", `[1;${"(0,".repeat(2049)}0${",1)".repeat(2049)}]`, ""].map((stamp) => ["-", "0 0 0 [1;1]", `0 0 0 ${stamp}`, "1,2 0 0 ", "1,2 0 0 "])];
  for (const list of rows) {
    const packed = gzipSync(Buffer.from(list.map((row) => `${row}\n`).join(""))).toString("base64");
    await opened(tab, file("spoilt_stamps.html", html.replace(place, `$1${packed}`)));
    assert.match(await tab.run(() => page.verdict), /^no [234] [15]$/, list.join());
  }
  await tab.open(file("spoilt_stamps.html", html.replace(place, "$1AAAA")));
  await tab.until(() => document.getElementById("told").textContent === "The export in this page cannot be unpacked.");
}

/** The picture of a trace that takes long to check is there at once, and says so with a bar; a worker checks it meanwhile, and its
 * answer is that of the program. */
export async function worker(tab) {
  const reports = unjoined(3000, 500), right = exportOf(reports), lines = right.toString().split("\n");
  const stamp = /"stamp":"([^"]*)"/, last = lines.length - 2;
  const wrong = [...lines.slice(0, last), lines[last].replace(stamp, () => lines[last - 1].match(stamp)[0]), ""].join("\n");
  for (const [name, bytes] of [["right", right], ["wrong", Buffer.from(wrong)]]) {
    await tab.open(TEMPLATE);
    await tab.pick("#file", file(`${name}.export`, bytes));
    await tab.until(() => page.isShown === true && page.worker !== null);
    const meanwhile = await tab.run(() => {
      const [bar, progress] = ["bar", "progress"].map((id) => document.getElementById(id));
      return { verdict: page.verdict, bar: bar.hidden, text: progress.textContent };
    });
    assert.deepEqual([meanwhile.verdict, meanwhile.bar], [null, false]);
    assert.match(meanwhile.text, /^Still being checked: \d+ of 3000 lines of the export\.$/);
    await tab.run(() => page.view.zoom(2));
    await tab.until(() => page.verdict !== null);
    assert.equal(await tab.run(() => page.verdict), verdictOf(bytes), name);
    assert.equal(await tab.run(() => document.getElementById("bar").hidden), true);
  }
  const left = await tab.run((base64) => {
    page.open(bytesOf(base64), "again");
    const first = page.worker;
    page.open(new TextEncoder().encode('{"events":1,"messages":1,"tasks":1,"tenant":"x","version":2}\n'), "small");
    return first !== null && page.worker === null;
  }, right.toString("base64"));
  await pause(300);
  assert.ok(left, "the worker of an export that is left is ended");
  assert.equal(await notice(tab), "small: the export has no event, so nothing is drawn.");
  const slow = await tab.run((base64) => {
    self.Worker = undefined;
    page.open(bytesOf(base64), "slices");
    return page.verdict;
  }, right.toString("base64"));
  assert.equal(slow, null);
  await tab.until(() => page.verdict !== null);
  assert.equal(await tab.run(() => page.verdict), "yes 3000", "without a worker the page checks in slices");
}

const MEBIBYTE = 2 ** 20, MOST_PAGE = 1200000;

/** A page of 16384 events of 2047 tasks has 1.2 MB at most, whether one task starts the others or they one another, and whether they are
 * joined. Of the one that is packed worst the stamps are those of the export. */
export async function bigPages(tab) {
  const told = [];
  let bytes, page;
  for (const reports of [greatest(seeded(3)), unjoined(16384, 2047), unjoined(16384, 2047, { byAll: true })]) {
    bytes = exportOf(reports);
    page = pictureOf("big.html", bytes);
    const { length } = readFileSync(page);
    told.push(`${(bytes.length / MEBIBYTE).toFixed(1)} MiB as a page of ${(length / MEBIBYTE).toFixed(2)} MiB`);
    assert.ok(length <= MOST_PAGE, told.at(-1));
  }
  await opened(tab, page);
  assert.equal(await tab.run(() => page.verdict), "yes 16384");
  assert.deepEqual(await stampsShown(tab), stampsOf(bytes));
  return told.join(", ");
}

/** A page of 16384 events of 2047 tasks that nobody joined takes a tenth of its export at most. It shows its picture, and hands the
 * check to a worker, within 3 s of the processor, which other work beside does not count. */
export async function unjoinedTasks(tab) {
  const bytes = exportOf(unjoined(16384, 2047)), html = pictureOf("unjoined.html", bytes), size = readFileSync(html).length, times = [];
  await tab.send("Performance.enable", { timeDomain: "threadTicks" });
  for (let turn = 0; turn < 3; turn++) {
    await tab.navigate("about:blank");
    const begin = await processorTime(tab);
    await tab.navigate(`file://${html}`);
    await tab.until(() => typeof page !== "undefined" && page.isShown === true && page.worker !== null);
    await tab.frame();
    times.push(await processorTime(tab) - begin);
    assert.equal(await tab.run(() => page.verdict), null, "the picture is there before the check ends");
  }
  const mebibytes = (length) => (length / MEBIBYTE).toFixed(1);
  const took = times.map((time) => time.toFixed(0)).join(", ");
  const words = `${mebibytes(bytes.length)} MiB as a page of ${mebibytes(size)} MiB, shown after ${took} ms of the processor`;
  assert.ok(size * 10 <= bytes.length && Math.min(...times) < MOST_OPENING, words);
  return words;
}
