// The screenshots: of ten traces, which are to be looked at before the page is handed on, and the pictures of docs/guide.md and README.md.
// `browser/README.md` says what the first glance at each has to show.
import { mkdirSync, readFileSync } from "node:fs";
import { join } from "node:path";
import { alike, pictureOfAlike } from "./first_glance.mjs";
import { exportOf, file, pageOf, pictureOf, ran, TOP } from "./program.mjs";
import { race, rows } from "./racing.mjs";
import { opened, pause, shown } from "./tab.mjs";
import { greatest, LOST_UPDATE, seeded, WITH_LOCK, WORKED } from "./traces.mjs";

const DESK = ["desk", 1280, 800, {}], DARK = ["dark", 1280, 800, { isDark: true }], SMALL = ["small", 900, 600, {}];
const SMALL_DARK = ["small_dark", 900, 600, { isDark: true }], ALL = [DESK, DARK, SMALL, SMALL_DARK];
const PHONE = ["phone", 390, 844, { ratio: 2, mobile: true }], GUIDE = ["guide", 1000, 400, {}], README = ["readme", 1120, 720, {}];
const EXAMPLE = "clients/python/examples/lost_update.py", AROUND = 2, STORED = join(TOP, "browser/checks/stored");

async function shot(browser, path, hash, [, width, height, settings], target, before = () => {}) {
  const tab = await browser.page(width, height, settings);
  const features = [{ name: "prefers-color-scheme", value: settings.isDark ? "dark" : "light" }];
  await tab.send("Emulation.setEmulatedMedia", { features });
  if (path.endsWith("empty_shot.html")) await opened(tab, path, hash);
  else await shown(tab, path, hash);
  await before(tab);
  await pause(300);
  await tab.screenshot(target);
  await tab.close();
}

/** The touch that this line of the example makes, with the lines around it. */
function touch(event, task, kind, text) {
  const lines = readFileSync(join(TOP, EXAMPLE)).toString().split("\n"), line = lines.findIndex((one) => one.includes(text)) + 1;
  const around = lines.slice(line - AROUND - 1, line + AROUND);
  return { event, task, kind, file: EXAMPLE, line, function: "sell", begin: line - AROUND, text: around };
}

const READ = ["read", 'left = stock["left"]'], WRITE = ["write", 'stock["left"] = left - 1'];
const RACES = [race("stock['left']", [touch(6, "alice", ...WRITE), touch(7, "bob", ...WRITE)], { times: 1 }),
  race("stock['left']", [touch(4, "alice", ...READ), touch(7, "bob", ...WRITE)], { times: 2 })];
const LABELS = [[4, "alice", ...READ], [5, "bob", ...READ], [6, "alice", ...WRITE], [7, "bob", ...WRITE]];

const head = (count, unseen = []) => ({ races: count, possible: 0, unseen });

/** The lost update with its races and labels, as `run` draws it. */
function guide(races = RACES, name = "guide") {
  const labels = LABELS.map(([event, task, kind, text]) =>
    ({ ...touch(event, task, kind, text), thing: "stock", label: `${kind} stock['left']` }));
  const list = file(`${name}.races`, rows([head(races.length), ...races]));
  return pictureOf(`${name}_shot.html`, exportOf(LOST_UPDATE), ["--labels", file(`${name}.journal`, rows(labels)), "--races", list,
    "--program", "lost_update.py"]);
}

/** A trace that a run left in the folder of stored ones: its export, its journal and its races. */
function stored(name, program) {
  const path = join(STORED, name);
  return pictureOf(`${name}_shot.html`, readFileSync(`${path}.export`), ["--labels", `${path}.journal`, "--races", `${path}.races`, "--program", program]);
}

/** A run in parts that a run left there: a list of its exports, each with its journal beside it, and its races. */
function storedParts(name, program) {
  const path = join(STORED, name);
  return pictureOf(`${name}_shot.html`, "", ["--parts", path, "--races", `${path}.races`, "--program", program]);
}

/** Each trace, what is chosen in it, in which sizes, and what is done first. */
function traces() {
  const many = (tasks) => pictureOfAlike(`tasks_${tasks}_shot.html`, alike(tasks), ["--program", "server.py"]);
  return [["race", guide(), "", [...ALL, PHONE, README]], ["no_race", guide([], "none"), "", ALL], ["one_process", stored("shop", "shop.py"), "", ALL],
    ["deadlock", stored("deadlock", "transfer.py"), "", ALL],
    ["three_processes", stored("day", "system.toml"), "", ALL], ["tasks_200", many(200), "", ALL], ["tasks_2000", many(2000), "", ALL],
    ["events_16384", pictureOf("greatest_shot.html", exportOf(greatest(seeded(3)))), "", ALL], ["parts", storedParts("tally", "tally.py"), "", ALL],
    ["by_clock", stored("day", "system.toml"), "#time=clock", ALL],
    ["search", guide(RACES, "search"), "", ALL, (tab) => tab.run(() => {
      document.getElementById("search").value = "nothing like it";
      page.search("nothing like it");
    })],
    ["help", guide(RACES, "help"), "", ALL, (tab) => tab.run(() => document.getElementById("help").showModal())],
    ["empty", pageOf("empty_shot.html", exportOf([])), "", ALL],
    ["worked", pictureOf("worked_shot.html", exportOf(WORKED)), "#event=5", [...ALL, GUIDE]],
    ["lost_update", pictureOf("lost_update_shot.html", exportOf(LOST_UPDATE)), "#event=6", [GUIDE]],
    ["lock", pictureOf("lock_shot.html", exportOf(WITH_LOCK)), "#event=5", [GUIDE]]];
}

export async function screenshots(browser, folder) {
  mkdirSync(folder, { recursive: true });
  for (const [name, path, hash, sizes, before] of traces()) {
    for (const size of sizes) await shot(browser, path, hash, size, join(folder, `${name}_${size[0]}.png`), before);
  }
  return `in ${folder}`;
}

/** Five pages with races for somebody who has not seen one: what races, and where, has to be found in them. No picture of the guide is
 * among them, and all but one are of programs that ran. */
export function trials(folder) {
  mkdirSync(folder, { recursive: true });
  const pages = { 1: stored("shop", "shop.py"), 2: stored("day", "system.toml"), 3: pictureOfAlike("trial_200.html", alike(200), ["--program", "server.py"]),
    4: stored("basket", "basket.py"), 5: storedParts("tally", "tally.py") };
  for (const [name, path] of Object.entries(pages)) ran("cp", [path, join(folder, `${name}.html`)]);
  return `in ${folder}`;
}
