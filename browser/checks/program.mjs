// The program, asked as from a shell, and files made with it in a folder that is gone afterwards.
import assert from "node:assert/strict";
import { spawnSync } from "node:child_process";
import { mkdtempSync, readFileSync, rmSync, writeFileSync } from "node:fs";
import { tmpdir } from "node:os";
import { dirname, join } from "node:path";
import { fileURLToPath } from "node:url";
import { gzipSync } from "node:zlib";

export const TOP = dirname(dirname(dirname(fileURLToPath(import.meta.url))));
export const TEMPLATE = join(TOP, "browser/picture.html");
const PICTURE = join(TOP, "picture"), PROGRAM = process.env.ITC_TRACE;
const GREATEST = ["--events", "16384", "--tasks", "2048", "--messages", "16384"];
let work;

export function cleanUp() {
  if (work) rmSync(work, { recursive: true, force: true });
}

export function inWork(name) {
  work ??= mkdtempSync(join(tmpdir(), "picture-test-"));
  return join(work, name);
}

export function file(name, bytes) {
  writeFileSync(inWork(name), bytes);
  return inWork(name);
}

function run(program, words, input) {
  const ran = spawnSync(program, words, { input, maxBuffer: 2 ** 30 });
  if (ran.error) throw ran.error;
  return ran;
}

/** What a program writes that ends with status 0. */
export function ran(program, words, input) {
  const { status, stdout, stderr } = run(program, words, input);
  assert.equal(status, 0, `${program} ${words.join(" ")}: ${stderr}`);
  return stdout;
}

const addressed = (requests) => requests.map((request) => `x ${request}\n`).join("");

export const exportOf = (reports) => ran(PROGRAM, ["replay", ...GREATEST, "--export", "x", "x"], addressed(reports));

/** What the program answers to questions behind the reports, without the tenant's name. */
export function answers(reports, questions) {
  const replies = ran(PROGRAM, ["replay", ...GREATEST, "x"], addressed([...reports, ...questions])).toString().trim().split("\n");
  return replies.slice(reports.length).map((reply) => reply.slice(2));
}

/** The lists that the program answers to this question about each of the events. */
export function lists(reports, keyword, events) {
  const replies = answers(reports, events.map((event) => `${keyword} ${event}`));
  return replies.map((reply) => reply.split(" ").slice(2).map(Number));
}

/** What the check answers to these bytes: `yes N` or `no LINE REASON`. */
export const verdictOf = (bytes) => run(PROGRAM, ["check"], bytes).stdout.toString().trim();

/** The sentence for each reason, as the help of the check has it. */
export function sentences() {
  const help = ran(PROGRAM, ["check", "--help"]).toString();
  return new Map([...help.matchAll(/^ {2}(\d) (.*)$/gm)].map(([, reason, sentence]) => [reason, sentence]));
}

export const pictureOf = (name, bytes, words = []) => file(name, ran(PICTURE, words, bytes));

export const pictureRun = (bytes, words = []) => run(PICTURE, words, bytes);

/** A page with these bytes in it, as somebody may make one: `picture` would refuse some of them. */
export function pageOf(name, bytes, carried = {}) {
  const fill = (page, [id, content]) => page.replace(`id="${id}">`, () => `id="${id}">${gzipSync(Buffer.from(content)).toString("base64")}`);
  return file(name, Object.entries({ export: bytes, ...carried }).reduce(fill, readFileSync(TEMPLATE, "utf8")));
}
