// Hands the checks of the page out to lanes, and tells what came of each: see `browser/test`.
import { fork } from "node:child_process";
import { once } from "node:events";
import { fileURLToPath } from "node:url";
import { CHECKS, LONG, TIMED } from "./checks.mjs";

const LANES = 2;

/** A process that makes checks in a Chromium of its own. */
class Lane {
  constructor() {
    this.process = fork(fileURLToPath(new URL("lane.mjs", import.meta.url)));
    this.ended = once(this.process, "exit");
  }

  /** What the lane tells of its work, once that is done. */
  async make(work) {
    this.process.send(work);
    const [{ told, fault }] = await Promise.race([once(this.process, "message"), this.ended.then(() => [{ fault: "a lane has ended" }])]);
    if (fault) throw new Error(fault);
    return told;
  }

  /** Makes one check after another, until none is left. A fault leaves none for the other lanes. */
  async makeAll(left) {
    try {
      while (left.length > 0) {
        const name = left.shift(), told = await this.make({ name });
        console.log(`browser/test: ${name}: right${told ? `: ${told}` : ""}`);
      }
    } finally {
      left.length = 0;
    }
  }

  async end() {
    if (this.process.connected) this.process.disconnect();
    await this.ended;
  }
}

function chosen(only, isUntimed) {
  const asked = Object.keys(CHECKS).filter((name) => only === "" || only.split(",").includes(name));
  const names = asked.filter((name) => !isUntimed || !TIMED.includes(name));
  if (names.length < asked.length) console.log(`skipped: browser: ${TIMED.join(", ")}: its limits of time want a quiet machine: browser/test`);
  if (names.length === 0) throw new Error(`there is no check ${only}`);
  return names;
}

async function check(names, folder) {
  const timed = TIMED.filter((name) => names.includes(name)), others = names.filter((name) => !TIMED.includes(name));
  const left = [...LONG.filter((name) => others.includes(name)), ...others.filter((name) => !LONG.includes(name))];
  const [first, ...further] = Array.from({ length: Math.max(1, Math.min(LANES, left.length)) }, () => new Lane());
  try {
    const ended = await Promise.allSettled([first.makeAll(left), ...further.map((lane) => lane.makeAll(left).finally(() => lane.end()))]);
    const wrong = ended.find(({ status }) => status === "rejected");
    if (wrong) throw wrong.reason;
    await first.makeAll(timed);
    if (folder) console.log(`browser/test: screenshots: ${await first.make({ folder })}`);
  } finally {
    await first.end();
  }
  console.log(`browser: ${names.length} passed`);
}

const words = process.argv.slice(2), isUntimed = words[0] === "--untimed", [folder, only = ""] = isUntimed ? words.slice(1) : words;
try {
  await check(chosen(only, isUntimed), folder);
} catch (fault) {
  console.error(`browser: wrong: ${fault.message}`);
  process.exitCode = 1;
}
