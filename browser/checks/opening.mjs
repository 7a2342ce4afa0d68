// The checks of what is opened: exports, spoilt ones, and such as would like to be read as something else.
import assert from "node:assert/strict";
import { createHash } from "node:crypto";
import { readFileSync } from "node:fs";
import { exportOf, file, pictureOf, pictureRun, sentences, TEMPLATE, verdictOf } from "./program.mjs";
import { spoiltExports } from "./spoilt.mjs";
import { notice, opened, picked, press, text } from "./tab.mjs";
import { LOST_UPDATE, NAMES, seeded, WITH_LOCK } from "./traces.mjs";

const LINE = '{"event":1,"kind":"local","name":"-","preds":[],"stamp":"[1;1]","task":"root"}\n';
const HOSTILE = '</script><script>window.wasRead = 1</script><img src="x" onerror="window.wasRead = 1"><!--';
const WRONG = ["[((0,1),0);(2,(1,0,2),0)]", "[((0,1),0);(3,(0,0,2),1)]"];

/** The page's policy allows its script and its style, which it names by their hashes, a worker of that script, and nothing else. */
export function policyFits() {
  const html = readFileSync(TEMPLATE, "utf8");
  const hashes = ["script", "style"].map((tag) => {
    const source = html.split(`<${tag}>`)[1].split(`</${tag}>`)[0];
    return `${tag}-src 'sha256-${createHash("sha256").update(source).digest("base64")}'`;
  });
  const policy = ["default-src 'none'", ...hashes, "worker-src blob:", "require-trusted-types-for 'script'", "trusted-types worker",
    "base-uri 'none'", "form-action 'none'"].join("; ");
  assert.ok(html.includes(`<meta http-equiv="Content-Security-Policy" content="${policy}">`),
    `the policy of browser/picture.html has to be: ${policy}`);
}

/** The page answers to each export as the check does, and says the line and the reason, in the words of the help. */
export async function spoilt(tab) {
  const exports = spoiltExports(), counts = new Map(), words = sentences();
  await tab.open(TEMPLATE);
  for (const bytes of exports) {
    const wanted = verdictOf(bytes), [, line, reason = "none"] = wanted.split(" ");
    await tab.run((base64) => page.open(bytesOf(base64), "spoilt"), bytes.toString("base64"));
    await tab.until(() => page.verdict !== null);
    assert.equal(await tab.run(() => page.verdict), wanted, `of ${bytes.subarray(0, 3000)}`);
    const fault = `no ${line} ${reason}. Line ${line} is faulty, reason ${reason}: ${words.get(reason)}`;
    assert.ok((await notice(tab)).startsWith(reason === "none" ? "spoilt: " : `spoilt: ${fault}`), await notice(tab));
    counts.set(reason, (counts.get(reason) ?? 0) + 1);
  }
  for (const reason of "123456") assert.ok(counts.get(reason) > 0, `no export is faulty for reason ${reason}`);
  return `${exports.length} exports, of them ${exports.length - counts.get("none")} faulty`;
}

/** The picker and a drop open an export, and tell what is faulty. */
export async function opening(tab) {
  const lost = exportOf(LOST_UPDATE), wrong = lost.toString().replace(...WRONG);
  await tab.open(TEMPLATE);
  assert.equal(await notice(tab), "No export is open.");
  await picked(tab, file("lost.export", lost));
  assert.equal(await notice(tab), "lost.export: 11 events, 3 tasks, 0 messages, 12 edges. Checked: 11 lines of the export, all right.");
  await picked(tab, file("wrong.export", wrong));
  assert.match(await notice(tab), /^wrong\.export: no 8 6\. Line 8 is faulty, reason 6: The trees of this event and of an earlier one /);
  await picked(tab, file("cut.export", lost.subarray(0, 300)));
  assert.match(await notice(tab), /^cut\.export: no 4 1\. Line 4 is faulty, reason 1: The line is no JSON /);
  assert.equal(await tab.run(() => page.isShown), false);
  await tab.drop(file("dropped.export", exportOf(WITH_LOCK)), 400, 400);
  await tab.until(() => document.getElementById("told").textContent.startsWith("dropped.export: 9 events"));
  assert.deepEqual(await tab.run(() => [page.isShown, page.verdict]), [true, "yes 9"]);
}

/** Whether the page asks for no export while it unpacks its own. It stands in the text of the page, for one that carries none. */
async function isNobodyInvited() {
  const invitation = document.getElementById("invitation");
  invitation.hidden = false;
  const opening = openCarried(1), { hidden } = invitation;
  await opening;
  return hidden;
}

/** Both versions are drawn. A header tells whose trace it is, and under which limits. */
export async function versions(tab) {
  const whole = exportOf(LOST_UPDATE), behind = whole.indexOf(10) + 1;
  const limits = "Limits: 16384 events, 2048 tasks, 16384 messages.";
  const counts = "11 events, 3 tasks, 0 messages, 12 edges. Checked: 11 lines of the export, all right.";
  const cases = [[whole, counts, "Tenant x", limits], [whole.subarray(behind), counts, "", ""]];
  for (const [bytes, told, ...about] of cases) {
    await opened(tab, pictureOf("version.html", bytes));
    assert.equal(await notice(tab), told);
    assert.ok(await tab.run(isNobodyInvited), "a page that unpacks its export asks for another one");
    assert.deepEqual([await text(tab, "#about h2"), await text(tab, "#limits")], about);
  }
}

/** `picture` tells the line and the reason of what is no export, in the words of the help, writes nothing then, and takes any
 * bytes. */
export function spoiltPictures() {
  const lost = exportOf(LOST_UPDATE).toString(), random = seeded(7), words = sentences();
  const bytes = Buffer.from(Array.from({ length: 4096 }, () => Math.floor(random() * 256)));
  const cases = [[lost.replace(...WRONG), 8, "6"], [lost.replace("[5]", "[9]"), 8, "4"], [bytes, 1, "1"], ["<script>", 1, "1"],
    ["\n", 1, "1"], [lost.replace(":2}", ":3}"), 1, "2"]];
  for (const [input, line, reason] of cases) {
    const { status, stdout, stderr } = pictureRun(input);
    const told = `picture: standard input is no export: line ${line}, reason ${reason}: ${words.get(reason)}\n`;
    assert.deepEqual([status, stdout.length, stderr.toString()], [2, 0, told]);
  }
  refusals(lost);
  assert.deepEqual(pictureRun(lost).stdout, pictureRun(lost).stdout, "the same export gives the same page");
}

/** An export without an event, and a journal or a list of races that is empty or broken, are refused in a line, and nothing is written. */
function refusals(lost) {
  const row = (event) => JSON.stringify({ event, task: "alice", thing: null, kind: "local", file: null, line: 0, label: "x" });
  const side = (event) => ({ event, task: "alice", kind: "read", file: "a.py", line: 1, function: "f", begin: 1, text: [] });
  const race = (more) => JSON.stringify({ thing: "x", made: "", possible: false, why: "y", times: 1, sides: [side(4), side(7)], ...more });
  const head = (races) => JSON.stringify({ races, possible: 0, unseen: [] });
  const journals = [["", "is empty"], ["\n \n", "is empty"], [row(4), "line 1 breaks off"], [`${row(4)}\n${row(5).slice(0, 20)}`, "line 2 breaks off"],
    [`${row(4)}\n{]\n`, "line 2 is no line of a journal"], [`${row(12)}\n`, "of a journal of 11 events"], [`${row(0)}\n`, "line 1"], [`${row("4")}\n`, "line 1"],
    [`${row(true)}\n`, "line 1"], ['{"x":1}\n', "line 1"], ["[]\n", "line 1"], [lost, "line 1"], ["[".repeat(100000) + "\n", "line 1"], ["\u0000\n", "line 1"]];
  const races = [["", "is empty"], [race({}), "line 1 breaks off"], [`${head(1)}\n`, "it has 0 of 1 races"], [`${head(1)}\n${race({})}\n${race({})}\n`, "it has 2 of 1"],
    [`${race({ times: "1" })}\n`, "line 1 is no race"], [`${race({ sides: [side(4)] })}\n`, "line 1"], [`${race({ sides: [side(4), side(12)] })}\n`, "line 1"],
    [`${race({ sides: [side(4), { ...side(7), part: 2 }] })}\n`, "line 1"], [`${head(0)}\n{}\n`, "line 2"], ["null\n", "line 1"]];
  const cases = [["", [], "standard input is empty"], [`${lost.split("\n")[0]}\n`, [], "standard input has no event"],
    ...journals.map(([text, told], place) => [lost, ["--labels", file(`refused_${place}.journal`, text)], told]),
    ...races.map(([text, told], place) => [lost, ["--races", file(`refused_${place}.races`, text)], told]),
    [lost, ["--labels", "/nothing/there"], "cannot be read"], ["", ["--parts", file("no.parts", "")], "it lists no parts"]];
  for (const [bytes, words, told] of cases) {
    const { status, stdout, stderr } = pictureRun(bytes, words);
    assert.deepEqual([status, stdout.length], [2, 0], `${words} ${told}: ${stderr}`);
    assert.match(stderr.toString(), /^picture: [^\n]*\n$/);
    assert.ok(stderr.toString().includes(told), `${told}: ${stderr}`);
  }
  for (const [text, words] of [[`${row(4)}\n{"end":true}\n`, "--labels"], [`${head(0)}\n`, "--races"], [`${head(1)}\n${race({})}\n`, "--races"]]) {
    assert.equal(pictureRun(lost, [words, file("taken", text)]).status, 0, text);
  }
}

/** Words that mean something elsewhere are names. */
export async function names(tab) {
  await opened(tab, pictureOf("names.html", exportOf(NAMES)));
  assert.match(await notice(tab), /^15 events, 5 tasks, 4 messages, .* Checked: 15 lines of the export, all right\.$/);
  assert.deepEqual(await tab.run(() => page.tasks().map(({ name }) => name)), ["root", "__proto__", "constructor", "local", "7"]);
  const found = new Map([["__proto__", [2, 7, 8]], ["constructor", [5]], ["toString", [5, 6]], ["hasOwnProperty", [9]],
    ["local", [6]], ["7", [7, 7]], ["1", [1, 13]]]);
  for (const [sought, events] of found) {
    const shown = await tab.run((name) => page.find(name).filter(({ rank }) => rank === 0).map(({ event }) => event), sought);
    assert.deepEqual(shown, events, sought);
  }
}

/** Text that looks like HTML, in an export, in its name and in the search, is text. */
export async function hostileText(tab) {
  const json = JSON.stringify(HOSTILE).slice(1, -1);
  await opened(tab, pictureOf("hostile.html", LINE.replace("{", `{"task":"${json}",`)));
  assert.match(await notice(tab), /^1 event, 1 task, .* Checked: 1 line of the export, all right\.$/);
  const scripts = await tab.run(() => document.querySelectorAll("script").length);
  await picked(tab, file("<img src=x onerror=alert(1)>.export", LINE.replace("root", json)));
  assert.match(await notice(tab), /^<img src=x onerror=alert\(1\)>\.export: no 1 2\./);
  await picked(tab, file("stamp.export", LINE.replace("[1;1]", json)));
  assert.match(await notice(tab), /^stamp\.export: no 1 5\./);
  await tab.run(() => page.choose(1));
  assert.equal(await text(tab, "#chosen code"), HOSTILE);
  await press(tab, "#search");
  await tab.type("<b>");
  const found = await tab.run(() => ["img, b", "script"].map((sought) => document.querySelectorAll(sought).length));
  assert.deepEqual([await tab.run(() => window.wasRead ?? "nothing was read"), ...found], ["nothing was read", 0, scripts]);
  await nothingGetsOut(tab);
}

/** The policy, and not only a want of network, refuses whatever would ask for something or make text into HTML or a script. */
async function nothingGetsOut(tab) {
  const before = tab.complaints.length;
  const refused = await tab.run(async () => {
    const pixel = "data:image/gif;base64,R0lGODlhAQABAAAAACwAAAAAAQABAAA=";
    const image = () => new Promise((resolve, reject) => {
      Object.assign(new Image(), { onload: resolve, onerror: reject, src: pixel });
    });
    const attempts = [() => fetch("https://example.com/"), () => fetch("data:text/plain,x"), image,
      async () => Object.assign(document.body, { innerHTML: "<p>x</p>" }),
      async () => Object.assign(document.createElement("script"), { text: "0" }),
      async () => new Worker(URL.createObjectURL(new Blob(["1"]))), async () => trustedTypes.createPolicy("other", {}),
      async () => new Worker(CheckingWorker.trusted("blob:x") && CheckingWorker.policy.createScriptURL("data:text/javascript,1"))];
    const told = [];
    document.addEventListener("securitypolicyviolation", (violation) => told.push(violation.effectiveDirective));
    for (const attempt of attempts) told.push(await attempt().then(() => "allowed", () => "refused"));
    await new Promise((resolve) => setTimeout(resolve, 100));
    return told.sort();
  });
  const by = ["connect-src", "connect-src", "img-src", "require-trusted-types-for", "require-trusted-types-for",
    "require-trusted-types-for", "trusted-types"];
  assert.deepEqual(refused, [...by, ...by.map(() => "refused"), "refused"].sort());
  tab.complaints.length = before;
  tab.requests = tab.requests.filter((address) => !/example\.com|^data:|^blob:/.test(address));
}
