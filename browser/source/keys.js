// Keys and buttons

const ZOOM = 1.6;

// What the buttons do, by their ids.
const BUTTONS = {
  in: () => page.view.zoom(ZOOM), out: () => page.view.zoom(1 / ZOOM), fit: () => page.view.whole(), near: () => page.view.showChosen(),
  save: () => page.saveSvg(), unpair: () => page.chooseNothing(), raceBefore: () => page.turn(-1), raceBehind: () => page.turn(1),
  ask: () => at("help").showModal(), filter: () => page.toggleFilters(), hide: () => page.togglePanel(), seen: () => page.hideHint(),
  partBefore: () => page.openPart(page.part - 1), partBehind: () => page.openPart(page.part + 1),
};

// What the keys do, where nobody is typing. Those of an arrow are apart.
const KEYS_OF_PAGE = {
  "+": BUTTONS.in, "=": BUTTONS.in, "-": BUTTONS.out, 0: BUTTONS.fit, z: BUTTONS.near, n: BUTTONS.raceBehind, p: BUTTONS.raceBefore,
  "?": BUTTONS.ask, "/": () => at("search").focus(), f: BUTTONS.filter, h: BUTTONS.hide, "[": BUTTONS.partBefore, "]": BUTTONS.partBehind,
};
// These are of use without a picture, too.
const ALWAYS = ["?"];

function onClick(event) {
  const button = event.target.closest("button");
  if (button === null) return;
  const isOther = event.shiftKey || event.ctrlKey || event.metaKey;
  const chosen = Number(button.dataset.event ?? 0);
  if (button.dataset.race !== undefined) page.chooseRace(Number(button.dataset.race));
  if (button.dataset.fold !== undefined) page.openFold(button.dataset.fold);
  if (button.dataset.part !== undefined) page.openPart(Number(button.dataset.part), () => page.choose(Number(button.dataset.eventThere), { closer: true }));
  if (chosen > 0) page.choose(chosen, { asOther: isOther, closer: !at("events").contains(button) });
  BUTTONS[button.id]?.();
  if (button.id === "pair") {
    page.isPairing = !page.isPairing;
    page.describeChosen();
    at("pair").focus();
  }
}

function onKey(event) {
  const target = event.target, isTyping = target instanceof HTMLInputElement || target instanceof HTMLSelectElement;
  if (event.key === "Escape" && target.id === "search") target.blur();
  if (isTyping || at("help").open || event.altKey || event.ctrlKey || event.metaKey) return;
  if (!page.isShown && !ALWAYS.includes(event.key)) return;
  if (event.key === "Escape") {
    page.hideTip();
    page.chooseNothing();
  }
  if (Object.hasOwn(KEYS_OF_PAGE, event.key)) {
    event.preventDefault();
    KEYS_OF_PAGE[event.key]();
  }
  if (!event.key.startsWith("Arrow") || target.closest("aside, #divider, #filters") !== null) return;
  event.preventDefault();
  const focused = at("events").contains(target) ? Number(target.dataset.event) : 0;
  const from = focused || page.view.chosen, to = from === 0 ? Math.min(...page.buttons.keys()) : page.step(event.key, from);
  if (to > 0) page.choose(to, { focus: true });
}

function onDrop(event) {
  event.preventDefault();
  at("stage").classList.remove("dropping");
  if (event.dataTransfer.files.length > 0) page.openFile(event.dataTransfer.files[0]);
}
