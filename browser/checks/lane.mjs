// Makes checks of the page in a headless Chromium, as `main.mjs` asks for them, against what the program answers.
import assert from "node:assert/strict";
import { Browser } from "./browser.mjs";
import { CHECKS } from "./checks.mjs";
import { policyFits } from "./opening.mjs";
import { cleanUp, exportOf, pictureOf } from "./program.mjs";
import { screenshots } from "./screenshots.mjs";
import { BUSY, WORKED } from "./traces.mjs";

/** No page asked for anything but files, or complained. */
function nothingElse(name, pages) {
  for (const { complaints, requests } of pages) {
    assert.deepEqual(complaints, [], name);
    assert.deepEqual(requests.filter((address) => !/^(file:\/\/|blob:null\/|about:blank$)/.test(address)), [], name);
  }
}

async function begun() {
  policyFits();
  pictureOf("worked.html", exportOf(WORKED));
  pictureOf("busy.html", exportOf(BUSY));
  browser = new Browser("chromium");
  return Promise.all([browser.page(1280, 800), browser.page(390, 844, { ratio: 3, mobile: true })]);
}

async function make({ name, folder }) {
  pages ??= await begun();
  if (folder) return screenshots(browser, folder);
  const told = await CHECKS[name](...pages);
  nothingElse(name, pages);
  return told;
}

let browser, pages;
process.on("message", async (work) => {
  const answer = await make(work).then((told) => ({ told }), (fault) => ({ fault: fault.stack ?? String(fault) }));
  process.send(answer);
});
process.on("disconnect", async () => {
  await browser?.close();
  cleanUp();
});
