// The checks of the page by their names.
import { clocks } from "./clocks.mjs";
import { beside } from "./comparing.mjs";
import { filters } from "./filtering.mjs";
import { firstRace, manyTasks, uncovered, words } from "./first_glance.mjs";
import { hostileFiles } from "./hostile.mjs";
import { looks } from "./looks.mjs";
import { hostileText, names, opening, spoilt, spoiltPictures, versions } from "./opening.mjs";
import { bigPages, spoiltStamps, stamps, unjoinedTasks, worker } from "./packing.mjs";
import { deadlocks, ends, hostileRaces, races } from "./racing.mjs";
import { why } from "./reasons.mjs";
import { svg } from "./saving.mjs";
import { broadcasts, busyTrace, lanes, shapes, topic, workedExport } from "./showing.mjs";
import { frames, size } from "./size.mjs";
import { ends as breaks, crowds, keys, parts, processes, whole } from "./whole.mjs";
import { address, keyboard, labels, listsAndSearch, moving, tips } from "./using.mjs";

export const CHECKS = { "worked export": workedExport, shapes, "500 events": busyTrace, topic, broadcasts, lanes, "spoilt exports": spoilt,
  opening, versions, "spoilt pictures": spoiltPictures, names, "hostile text": hostileText, "lists and search": listsAndSearch, labels, keyboard,
  address, moving, tips, races, deadlocks, "hostile races": hostileRaces, "hostile files": hostileFiles, ends, why, filters, stamps,
  "spoilt stamps": spoiltStamps, worker, "big pages": bigPages, svg, beside, clocks, looks,
  "first race": firstRace, uncovered, "many tasks": manyTasks, words, whole, crowds, processes, keys, parts, breaks,
  "unjoined tasks": unjoinedTasks, frames, "16384 events": size };

// What takes longest, and is begun first.
export const LONG = ["spoilt exports", "big pages", "frames", "unjoined tasks", "worker", "clocks"];
// What has limits of time that other work beside would break. It is made alone.
export const TIMED = ["16384 events"];
