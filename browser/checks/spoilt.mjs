// Exports that are spoilt, and some that are only written in another way.
import { join } from "node:path";
import { busy, seeded, WORKED } from "./traces.mjs";
import { exportOf, ran, TOP } from "./program.mjs";

const SPOIL = join(TOP, "tests/spoil.py"), SEEDS = 120;
const nested = (levels) => "[".repeat(levels) + "]".repeat(levels);
const around = (levels, before, middle) => before.repeat(levels) + middle + ")".repeat(levels);

// What a member may be that a later one of its key hides.
const VALUES = ["1.0", "1e0", "-0", "1e400", "-1e400", "01", "1.", ".5", "1e", "NaN", "-", "18446744073709551616",
  "9".repeat(400), "null", "tru", '"\\ud83d"', '"\\ude00\\ud83d"', '"\\ud83d\\ude00"', '"\\u00"', '"\\x"',
  '"\t"', '"\u00e9\u{1f600}"', "[1,]", '{"a":1,}', "{}", nested(126), nested(127)];

const STAMPS = ["[1;9223372036854775807]", "[1;9223372036854775808]", "[1;(9223372036854775807,0,1)]",
  "[1;(9223372036854775806,0,1)]", "[1;(1,0,9007199254740993)]", "[1;01]", "[1;]", "[;1]", "[1;(1,1,1)]", "[1;(1,1,2)]",
  "[1;(0,(0,1,2),1)]", "[(1,1);1]", "[2;1]", "[1;1]x", "[\\u0031;1]", `[${around(2048, "(0,", "1")};1]`,
  `[${around(2049, "(0,", "1")};1]`, `[1;${around(2048, "(0,0,", "1")}]`, `[1;${around(2049, "(0,0,", "1")}]`];

// A line of the small export, and what stands there in place of what.
const CHANGES = [[2, /.*/, ""], [3, ',"task":"a"', ""], [4, '"event":4', '"event":5'], [6, "[4,5]", "[5,4]"], [5, "[3]", "[5]"],
  [2, "[(1,0);2]", "[(0,0);2]"], [6, "[(1,0);4]", "[(1,0);3]"], [6, "[4,5]", "[4]"], [4, "(2,1,0)", "2"], [5, "[3]", "[2,3]"],
  [8, "[6,7]", "[6,6]"], [3, '"event":3', '"event":3.0'], [3, '"event":3', '"event":18446744073709551615'], [3, "[2]", "[2.0]"],
  [3, "[2]", "[9007199254740993]"], [3, '"task":"a"', '"\\u0074ask":"\\u0061"'], [3, /(.*)/, "  $1\t\r"],
  [7, '"a"', '"__proto__"'], [7, '"task"', '"__proto__"'], [7, '"end"', '"constructor"'], [7, '"a"', `"${"a".repeat(25)}"`],
  [1, /$/, " ".repeat(65536 - 78)], [1, /$/, " ".repeat(65537 - 78)],
  ...VALUES.map((value) => [3, '{"event":3', `{"event":${value},"event":3`]), ...STAMPS.map((stamp) => [1, "[1;1]", stamp])];

// What stands in the header in place of what.
const HEADERS = [['"version":2', '"version":3'], ['"version":2', '"version":2.0'], ['"version":2', '"version":"2"'],
  ['"version":2', '"version":1,"version":2'], [',"version":2', ""], ['"tenant":"x"', '"tenant":""'],
  ['"tenant":"x"', `"tenant":"${"a".repeat(24)}"`], ['"tenant":"x"', `"tenant":"${"a".repeat(25)}"`],
  ['"tenant":"x"', '"tenant":"\\u0078"'], ['"tenant":"x"', '"tenant":7'], ['"tenant":"x",', ""], ["{", '{"more":1,'],
  ["{", '{"event":1,'], [/$/, "\n{}"], [/^/, " "], [/$/, " ".repeat(65536)],
  ...["events", "messages", "tasks"].flatMap((key) => ["0", "1", "2048", "2049", "16384", "16385", "1.0", "-1", '"1"', "null"]
    .map((value) => [new RegExp(`"${key}":[0-9]+`), `"${key}":${value}`]))];

// Numbers of two events, one after the other: only the greater one may follow.
const WIDE = [2n ** 53n, 2n ** 31n - 1n, 2n ** 31n, 2n ** 32n, 2n ** 63n - 2n]
  .flatMap((number) => [[number, number + 1n], [number + 1n, number]]);

function changed(lines, [number, old, fresh]) {
  const line = lines[number - 1].replace(old, fresh);
  return [...lines.slice(0, number - 1), line, ...lines.slice(number)].join("\n") + "\n";
}

function alone(numbers) {
  const line = (number, event) =>
    `{"event":${event + 1},"kind":"local","name":"-","preds":[${event || ""}],"stamp":"[1;${number}]","task":"root"}\n`;
  return numbers.map(line).join("");
}

/** As many lines as these, of one task. */
const long = (events) => alone(Array.from({ length: events }, (_, event) => event + 1));

export function spoiltExports() {
  const worked = exportOf(WORKED).toString(), [header, ...lines] = worked.split("\n").slice(0, -1);
  const events = lines.map((line) => `${line}\n`).join(""), behindHeader = (text) => `${header}\n${text}`;
  const small = exportOf(busy(seeded(6), 60, 8, 20));
  const seeds = Array.from({ length: SEEDS }, (_, seed) => ran("python3", [SPOIL, String(seed + 1)], small));
  const whole = ["", header, worked, events, worked.slice(0, -1), worked.replaceAll("\n", "\r\n"), `${worked}\n`,
    lines.slice(0, 3).join("\n"), `\ufeff${worked}`, behindHeader(worked), events + header, long(16384), long(16385),
    behindHeader(long(16384)), behindHeader(long(16385))];
  const bytes = [Buffer.from([0, 255, 10, 13]), Buffer.from(worked.replace('"a"', '"\x80"'), "latin1")];
  const changes = CHANGES.map((change) => changed(lines, change)), headers = HEADERS.map((change) => header.replace(...change));
  const texts = [...whole, ...changes, ...changes.map(behindHeader), ...headers.map((spoilt) => `${spoilt}\n${events}`),
    ...WIDE.map(alone)];
  return [...texts.map((text) => Buffer.from(text)), ...bytes, ...seeds];
}
