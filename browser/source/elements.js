// Elements and words of the page

const at = (id) => document.getElementById(id);
const MOST_FOUND = 60, MOST_LISTED = 400, MOST_SOURCE = 40, MOST_TIPS = 6, MOST_CLOCKS = 24;
const SLICE = 6, FIRST_SLICE = 40, REST_AFTER_INPUT = 200, REST_BEFORE_REVOKING = 60000;

/** An element with these properties and children. A child that is a text is never read as anything else. */
function element(tag, properties = {}, ...children) {
  const made = Object.assign(document.createElement(tag), properties);
  made.append(...children);
  return made;
}

function counted(count, one, many = one + "s") {
  return `${count} ${count === 1 ? one : many}`;
}

/** Whose trace it is, and under which limits. */
function headerWords({ tenant, events, tasks, messages }) {
  const limits = [[events, "event"], [tasks, "task"], [messages, "message"]].map(([most, word]) => counted(most, word));
  return [element("h2", {}, `Tenant ${tenant}`), element("p", { id: "limits" }, `Limits: ${limits.join(", ")}.`)];
}

/** Says of an export that each line of it was found right. */
const checkedWords = ({ events }) => `Checked: ${counted(events, "line")} of the export, all right.`;

/** The answer to an export with this fault, and what it means. */
const wordsOfFault = ({ line, reason }) => `no ${line} ${reason}. Line ${line} is faulty, reason ${reason}: ${REASONS[reason]}`;

/** What a line of a journal says, and the file and line of the program, if it has them. */
const labelAndPlace = ({ words, place }) => place === "" ? words : words === "" ? place : `${words}, ${place}`;

/** The number that the text is, or 0. */
function wholeNumber(text) {
  return /^[1-9][0-9]{0,8}$/.test(text) ? Number(text) : 0;
}

/** What an event did, in words. */
function deed(trace, event) {
  const name = trace.nameOf[event], task = trace.taskName(event);
  return [`${task}: local`, `${task} spawns ${name}`, `${task} sends ${name}`, `${task} receives ${name}`, `${task} ends`,
    `${task} joins ${name}`][trace.kinds[event]];
}

/** Tells what there is, and how far it is checked, which is not spoken. */
function tell(words, progress = "", part = null) {
  if (at("told").textContent !== words) at("told").textContent = words;
  at("progress").textContent = progress;
  at("bar").hidden = progress === "";
  if (part === null) at("bar").removeAttribute("value");
  else at("bar").value = part;
}

function icon(draw) {
  const canvas = element("canvas", { className: "icon", width: 36, height: 36 }), context = canvas.getContext("2d");
  canvas.setAttribute("aria-hidden", "true");
  context.fillStyle = COLOURS[0];
  context.beginPath();
  draw(context);
  context.fill("evenodd");
  return canvas;
}

const kindIcon = (kind) => icon((context) => addMark(context, kind, 18, 18, 12));
const raceIcon = () => icon((context) => {
  context.strokeStyle = palette.race;
  context.lineWidth = 4;
  context.arc(18, 18, 13, 0, 7);
  context.stroke();
  context.beginPath();
  addMark(context, LOCAL, 18, 18, 12);
});
const chainIcon = () => icon((context) => {
  context.fillStyle = palette.chain;
  context.rect(0, 12, 36, 12);
});
const STANDINGS = [[PAST, "past"], [FUTURE, "could be influenced"], [CONCURRENT, "concurrent"], [ITSELF, "chosen"]];
const standingIcon = (standing) => icon((context) => {
  context.fillStyle = COLOURS[standing];
  addStanding(context, standing, 18, 18, 14);
});
