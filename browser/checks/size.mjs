// The greatest trace: how long it takes to open, and how long a step of scrolling or zooming takes.
import assert from "node:assert/strict";
import { readFileSync } from "node:fs";
import { processorSeconds } from "./hostile.mjs";
import { exportOf, file, lists, pictureOf } from "./program.mjs";
import { shown } from "./tab.mjs";
import { greatest, seeded, unjoined } from "./traces.mjs";

const MOST_OPENING = 2000, MOST_OPENING_UNJOINED = 3000, MOST_STEP = 50;
const pan = (count, deltaX, deltaY) => ({ count, deltaX, deltaY });
const zoom = (count, deltaY) => ({ count, deltaX: 0, deltaY, ctrlKey: true });
const PLAN = [pan(15, 300, 0), zoom(30, 60), pan(15, 200, 0), pan(10, 0, 200), zoom(30, -60), pan(20, 900, 0), zoom(10, 100),
  pan(30, 400, 30)];

/** Takes steps and measures each from the wheel's event until its frame is on the canvas. A step is drawn three times and its
 * least time counts, since other work on the machine may come in between. */
const steps = async (plan) => {
  const { view } = page, times = [];
  const timed = (act) => {
    const begin = performance.now();
    act();
    return performance.now() - begin;
  };
  const drawn = () => timed(() => {
    view.draw();
    view.context.getImageData(0, 0, 1, 1);
  });
  for (const { count, ...turn } of plan) {
    for (let step = 0; step < count; step++) {
      await new Promise((resolve) => requestAnimationFrame(resolve));
      const wheel = new WheelEvent("wheel", { ...turn, clientX: 500, clientY: 300, cancelable: true });
      const asked = timed(() => view.canvas.dispatchEvent(wheel)), turns = [drawn(), drawn(), drawn()];
      times.push({ least: asked + Math.min(...turns), most: asked + Math.max(...turns), count: view.count });
    }
  }
  times.sort((one, other) => other.least - one.least);
  const reached = Math.min(timed(() => page.reach()), timed(() => page.reach()));
  const most = Math.max(...times.map((time) => time.most));
  return { longest: times[0], middle: times[times.length >> 1].least, most, reached };
};

/** How long it takes until the page is shown and its check goes on in a worker, so that the page answers. */
async function openingsOfPage(tab, html) {
  const times = [];
  for (let turn = 0; turn < 3; turn++) {
    await tab.navigate("about:blank");
    const begin = performance.now();
    await tab.navigate(`file://${html}`);
    await tab.until(() => typeof page !== "undefined" && page.isShown === true && (page.worker !== null || page.verdict !== null));
    await tab.frame();
    times.push(performance.now() - begin);
  }
  return times;
}

async function openings(tab, html, path) {
  const times = await openingsOfPage(tab, html);
  const begin = performance.now(), opened = await tab.run(() => page.opened);
  await tab.pick("#file", path);
  await tab.until((count) => page.opened > count + 1, opened);
  await tab.frame();
  return { asPage: times, asFile: performance.now() - begin };
}

/** What the longest step was, in words. What other work held up is measured again, three times at most. */
async function judged(tab, what) {
  for (let turn = 1; ; turn++) {
    const { longest, middle, most, reached } = await tab.run(steps, PLAN), isShort = Math.max(longest.least, reached) < MOST_STEP;
    const words = `${what}, the longest step ${longest.least.toFixed(1)} ms (${longest.count} events in view; `
      + `${most.toFixed(1)} ms with other work), half of them within ${middle.toFixed(1)} ms, the buttons over events `
      + `${reached.toFixed(1)} ms${turn > 1 ? `, measured ${turn} times` : ""}`;
    assert.ok(isShort || turn < 3, words);
    if (isShort) return words;
  }
}

const inWords = (times) => `${times.map((time) => time.toFixed(0)).join(", ")} ms`;

/** The greatest trace, and the page of the tasks that nobody joined, which is the greatest export. */
export async function size(tab) {
  const byUnjoined = await openingsOfPage(tab, pictureOf("unjoined.html", exportOf(unjoined(16384, 2047))));
  assert.ok(Math.min(...byUnjoined) < MOST_OPENING_UNJOINED, `the page of 2047 tasks that nobody joined opened in ${inWords(byUnjoined)}`);
  const reports = greatest(seeded(3)), spawned = reports.filter((report) => report.startsWith("spawn")).length;
  assert.deepEqual([reports.length, spawned], [16384, 2047]);
  const bytes = exportOf(reports), html = pictureOf("greatest.html", bytes);
  const { asPage, asFile } = await openings(tab, html, file("greatest.export", bytes)), begin = performance.now();
  assert.ok(Math.min(...asPage) < MOST_OPENING && asFile < MOST_OPENING, `opening took ${[...asPage, asFile].join(", ")} ms`);
  await tab.until(() => page.verdict !== null);
  const compared = performance.now() - begin, told = [];
  assert.equal(await tab.run(() => page.verdict), "yes 16384");
  told.push(await judged(tab, "plain"));
  await tab.run(() => page.choose(8000, { closer: true }));
  told.push(await judged(tab, "with an event chosen"));
  await tab.run(() => {
    const time = document.getElementById("time");
    time.value = "number";
    time.dispatchEvent(new Event("change"));
  });
  told.push(await judged(tab, "by event number"));
  await pastIsRight(tab, reports);
  const mebibytes = (length) => (length / 2 ** 20).toFixed(1);
  return `2047 tasks that nobody joined opened in ${inWords(byUnjoined)}; ${mebibytes(bytes.length)} MiB opened in ${inWords(asPage)} as a page of `
    + `${mebibytes(readFileSync(html).length)} MiB and in ${asFile.toFixed(0)} ms as a file, and compared after `
    + `${(compared / 1000).toFixed(1)} s more; ${told.join("; ")}`;
}

/** The past of some events is what the program answers; and choosing one takes no longer than a step. */
async function pastIsRight(tab, reports) {
  const random = seeded(23), events = Array.from({ length: 20 }, () => 1 + Math.floor(random() * 16384));
  const past = lists(reports, "past", events);
  for (const [place, event] of events.entries()) {
    const { shown, time } = await tab.run((chosen) => {
      const times = [0, 1, 2].map(() => {
        const begin = performance.now();
        page.choose(chosen);
        return performance.now() - begin;
      });
      return { shown: page.eventsStanding(PAST), time: Math.min(...times) };
    }, event);
    assert.deepEqual(shown, past[place]);
    assert.ok(time < MOST_STEP, `choosing event ${event} took ${time} ms`);
  }
}

const FRAMES = 60, MOST_OF_FRAME = 1000 / 30, TURNS = 3, MOST_OF_OPENING = 1000, OPENINGS = 6;
const ZOOMS = [["all of it", 1], ["a third", 3], ["a tenth", 10], ["near", 40]];

/** Moves the picture in each of so many frames, and tells how many there were in a second. */
const animate = async (frames) => {
  const { canvas } = page.view, begin = performance.now();
  for (let frame = 0; frame < frames; frame++) {
    const back = frame % 20 < 10 ? 1 : -1, turn = { deltaX: 40 * back, deltaY: frame % 2 === 0 ? 5 * back : 0, ctrlKey: frame % 2 === 0 };
    canvas.dispatchEvent(new WheelEvent("wheel", { ...turn, clientX: 400, clientY: 300, cancelable: true }));
    await new Promise((resolve) => requestAnimationFrame(resolve));
  }
  return 1000 * frames / (performance.now() - begin);
};

/** How much of the processor the page takes until it is shown, the least of some times. */
async function opening(tab, html) {
  const times = [];
  for (let turn = 0; turn < OPENINGS && !(Math.min(...times) < MOST_OF_OPENING); turn++) {
    await tab.navigate("about:blank");
    times.push(1000 * await processorSeconds(tab, async () => {
      await tab.navigate(`file://${html}`);
      await tab.until(() => typeof page !== "undefined" && page.isShown === true && (page.worker !== null || page.verdict !== null));
      await tab.frame();
    }));
  }
  return Math.min(...times);
}

/** The picture of 16384 events of 2047 tasks is shown within a second of the processor. It moves and zooms in frames that take the
 * processor less than a thirtieth of a second each. How many there were in a second is told, but other work beside decides that, too. */
export async function frames(tab) {
  const html = pictureOf("frames.html", exportOf(greatest(seeded(3)))), time = await opening(tab, html);
  const told = [`shown after ${time.toFixed(0)} ms of the processor`];
  assert.ok(time < MOST_OF_OPENING, told[0]);
  await shown(tab, html);
  await tab.until(() => page.verdict !== null);
  await tab.run(() => page.choose(8000));
  for (const [words, factor] of ZOOMS) {
    const times = [], rates = [];
    await tab.run((zoom) => {
      page.view.whole();
      page.view.zoom(zoom);
    }, factor);
    for (let turn = 0; turn < TURNS && !(Math.min(...times) < MOST_OF_FRAME); turn++) {
      times.push(1000 / FRAMES * await processorSeconds(tab, async () => rates.push(await tab.run(animate, FRAMES))));
    }
    const [time, rate] = [Math.min(...times), Math.max(...rates)];
    told.push(`${words}: ${time.toFixed(1)} ms of the processor a frame, ${rate.toFixed(0)} frames a second`);
    assert.ok(time < MOST_OF_FRAME, told.at(-1));
  }
  return told.join("; ");
}
