// The checks of how the page looks: light and dark, and in narrow windows.
import assert from "node:assert/strict";
import { inWork } from "./program.mjs";
import { pictureOfRaces, race, side } from "./racing.mjs";
import { opened } from "./tab.mjs";
import { LOST_UPDATE } from "./traces.mjs";

// What WCAG asks of text, and of marks.
const TEXT_CONTRAST = 4.5, MARK_CONTRAST = 3;
const SIZES = [[1280, 800], [760, 600], [390, 700], [320, 560]];

const media = (tab, scheme) => tab.send("Emulation.setEmulatedMedia", { features: [{ name: "prefers-color-scheme", value: scheme }] });

/** How light the colour is, from 0 to 1, as WCAG has it. */
function lightness(colour) {
  const [red, green, blue] = colour.map((value) => value / 255).map((value) => value <= 0.03928 ? value / 12.92 : ((value + 0.055) / 1.055) ** 2.4);
  return 0.2126 * red + 0.7152 * green + 0.0722 * blue;
}

function contrast(one, other) {
  const [less, more] = [lightness(one), lightness(other)].sort((first, second) => first - second);
  return (more + 0.05) / (less + 0.05);
}

/** The colours of the page and of the picture as they are now: what is written and drawn on, and with. */
const colours = (tab) => tab.run(() => {
  const context = document.createElement("canvas").getContext("2d"), style = getComputedStyle(document.documentElement);
  const numbers = (colour) => {
    context.fillStyle = colour;
    context.fillRect(0, 0, 1, 1);
    return [...context.getImageData(0, 0, 1, 1).data.subarray(0, 3)];
  };
  const named = (...names) => names.map((name) => [name, numbers(style.getPropertyValue(`--${name}`))]);
  const { view } = page;
  view.draw();
  return { paper: numbers(style.getPropertyValue("--paper")), drawnOn: [...view.context.getImageData(1, view.canvas.height - 2, 1, 1).data.subarray(0, 3)],
    texts: [...named("ink", "quiet", "race", "fault"), ["name", numbers(palette.name)], ["message", numbers(palette.message)], ["edge", numbers(palette.edge)]],
    marks: [...named("border", "focus"), ...COLOURS.map((colour, place) => [`standing ${place}`, numbers(colour)]), ["race", numbers(palette.race)]] };
});

// What people see who lack one kind of cone, as Machado, Oliveira and Fernandes have it (2009), by linear red, green and blue.
const SIGHTS = { all: [[1, 0, 0], [0, 1, 0], [0, 0, 1]],
  "no long ones": [[0.152286, 1.052583, -0.204868], [0.114503, 0.786281, 0.099216], [-0.003882, -0.048116, 1.051998]],
  "no middle ones": [[0.367322, 0.860646, -0.227968], [0.280085, 0.672501, 0.047413], [-0.01182, 0.04294, 0.968881]],
  "no short ones": [[1.255528, -0.076749, -0.178779], [-0.078411, 0.930809, 0.147602], [0.004733, 0.691367, 0.3039]] };
const LEAST_DIFFERENCE = 8;

/** The colour as a point of CIELAB, as somebody with this sight sees it. */
function seenAs(colour, sight) {
  const light = [1, 3, 5].map((at) => Number.parseInt(colour.slice(at, at + 2), 16) / 255)
    .map((value) => value <= 0.04045 ? value / 12.92 : ((value + 0.055) / 1.055) ** 2.4);
  const [red, green, blue] = sight.map((row) => Math.min(1, Math.max(0, row.reduce((sum, part, at) => sum + part * light[at], 0))));
  const root = (value) => value > 0.008856 ? Math.cbrt(value) : 7.787 * value + 16 / 116;
  const x = root((0.4124 * red + 0.3576 * green + 0.1805 * blue) / 0.9505), y = root(0.2126 * red + 0.7152 * green + 0.0722 * blue);
  const z = root((0.0193 * red + 0.1192 * green + 0.9505 * blue) / 1.089);
  return [116 * y - 16, 500 * (x - y), 200 * (y - z)];
}

/** The colours of any two processes differ, in the light and in the dark, also for people who do not see all colours. */
async function processColours(tab) {
  for (const list of await tab.run(() => [LIGHT.processes, DARK.processes])) {
    for (const [name, sight] of Object.entries(SIGHTS)) {
      const points = list.map((colour) => seenAs(colour, sight));
      points.forEach((one, place) => points.slice(0, place).forEach((other, otherPlace) => {
        const difference = Math.hypot(...one.map((value, at) => value - other[at]));
        assert.ok(difference >= LEAST_DIFFERENCE, `${list[place]} and ${list[otherPlace]} differ by ${difference.toFixed(1)}: ${name}`);
      }));
    }
  }
}

/** Light and dark, all that is written and drawn stands out, and the page follows when the system changes between them. */
async function schemes(tab) {
  await opened(tab, inWork("busy.html"));
  const papers = [];
  for (const scheme of ["light", "dark", "light"]) {
    await media(tab, scheme);
    await tab.frame();
    const { paper, drawnOn, texts, marks } = await colours(tab);
    papers.push(lightness(drawnOn) > 0.5 ? "light" : "dark");
    assert.deepEqual(drawnOn, paper, scheme);
    for (const [name, colour] of texts) assert.ok(contrast(colour, paper) >= TEXT_CONTRAST, `${scheme}: ${name} ${colour} on ${paper}`);
    for (const [name, colour] of marks) assert.ok(contrast(colour, paper) >= MARK_CONTRAST, `${scheme}: ${name} ${colour} on ${paper}`);
  }
  assert.deepEqual(papers, ["light", "dark", "light"]);
  await tab.send("Emulation.setEmulatedMedia", { features: [] });
}

/** In a narrow window nothing stands aside of it, each control can be reached, and picture and panel share the height. */
async function narrow(tab) {
  const sides = [side(4, "alice", "read", 11), side(7, "bob", "write", 12)], wide = { ...sides[0], text: [`${" ".repeat(8)}${"x".repeat(150)}`] };
  const path = pictureOfRaces("narrow", LOST_UPDATE, [race("a_thing_with_a_name_that_is_long_and_has_no_blank_in_it", [wide, sides[1]])]);
  await opened(tab, path, "#event=4&other=7");
  for (const [width, height] of SIZES) {
    await tab.send("Emulation.setDeviceMetricsOverride", { width, height, deviceScaleFactor: 1, mobile: false });
    await tab.frame();
    const faults = await tab.run(() => {
      const box = (part) => part.getBoundingClientRect(), isIn = ({ left, right, top, bottom }) =>
        left >= 0 && right <= innerWidth + 0.5 && top >= 0 && bottom <= innerHeight + 0.5;
      const controls = [...document.querySelectorAll("header button, header select, header .open, header #search")].filter((part) =>
        part.offsetParent !== null);
      const outside = controls.filter((part) => !isIn(box(part))).map((part) => part.id || part.textContent);
      const aside = document.querySelector("aside"), high = box(document.getElementById("stage")).height;
      const isWide = (part) => part.scrollWidth > part.clientWidth + 1;
      return [...outside, ...isWide(document.documentElement) ? ["the page is wider than its window"] : [],
        ...isWide(aside) ? ["the panel is wider than its place"] : [], ...high < innerHeight / 4 ? [`the picture is ${high} high`] : [],
        ...box(aside).height < innerHeight / 4 ? ["the panel is low"] : []];
    });
    assert.deepEqual(faults, [], `${width} x ${height}`);
  }
  await tab.send("Emulation.setDeviceMetricsOverride", { width: 1280, height: 800, deviceScaleFactor: 1, mobile: false });
}

export async function looks(tab) {
  await schemes(tab);
  await processColours(tab);
  await narrow(tab);
}
