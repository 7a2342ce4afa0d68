// The panel of races

const FEW_RACES = 3, MOST_TITLE = 80;

/** Lists the races, and shows one. */
const Racing = (Base) => class extends Base {
  /** Takes the races of the trace, a line of JSON each, behind one that says how many they are. A line that is none, or names an event
   * that is not there, is passed over. */
  openRaces(text) {
    const rows = text.split("\n").map(objectIn), isHere = ({ part }) => part === this.part;
    const isThere = (side) => side.event >= 1 && (side.event <= this.trace.events || !isHere(side)) && side.part >= 1 && side.part <= this.partCount;
    this.headOfRaces = headOfRaces(rows[0]);
    this.races = rows.map(raceOf).filter((race) => race !== null && race.sides.every(isThere));
    this.racing();
    if (this.isShown) this.useLayout(true);
    this.describeRaces();
    this.describeTrace();
    this.describeChosen();
    if (this.view.isRace) this.view.showChosen();
  }

  /** Notes which events of this part race, and with which touch. */
  racing() {
    const { view } = this;
    this.racingTouches = new Map();
    for (const race of this.races) {
      for (const side of race.sides) {
        const { event, part } = side;
        if (part === this.part && !this.racingTouches.has(event)) this.racingTouches.set(event, labelOfSide(race, side));
      }
    }
    view.racing = new Set(this.racingTouches.keys());
  }

  /** The race whose two events are chosen, if there is one. */
  chosenRace() {
    const { chosen, other } = this.view, isChosen = (side, event) => side.event === event && side.part === this.part;
    const isIt = ({ pair: [one, two] }) => {
      if (one.part !== two.part) return other === 0 && (isChosen(one, chosen) || isChosen(two, chosen));
      return (isChosen(one, chosen) && isChosen(two, other)) || (isChosen(two, chosen) && isChosen(one, other));
    };
    const last = this.races[this.racePlace];
    return last !== undefined && isIt(last) ? last : this.races.find(isIt);
  }

  /** Chooses both events of a race, or the one that is in this part. A race of another part opens that. */
  chooseRace(place, writes = true) {
    const { view } = this, race = this.races[place], here = race.pair.filter(({ part }) => part === this.part);
    this.racePlace = place;
    if (here.length === 0) {
      this.openPart(race.sides.at(-1).part, () => this.chooseRace(place));
      return;
    }
    const [one, other = 0] = here.map(({ event }) => event);
    Object.assign(view, { chosen: one, other, standings: this.trace.standings(one) });
    this.isPairing = false;
    if (this.wantsLayout([one, other])) this.useLayout(true);
    view.showChosen();
    this.describeChosen();
    if (writes) this.writeAddress();
    at("panel").scrollTop = 0;
  }

  /** Chooses the next race, or the one before. */
  turn(by) {
    const { races } = this, race = this.chosenRace(), place = race === undefined ? -1 : races.indexOf(race);
    if (races.length === 0) return;
    const next = place < 0 ? (by > 0 ? 0 : races.length - 1) : (place + by + races.length) % races.length;
    this.chooseRace(next);
  }

  /** How many races there are, in words: nothing is said of a trace of which nobody has looked for races. */
  racesInWords() {
    const { races, headOfRaces: head } = this, states = ["", "confirmed", "possible"];
    const counts = states.flatMap((state) => ["race", "deadlock"].flatMap((kind) => {
      const name = `${state} ${kind}`.trim(), count = races.filter((race) => nameOfRace(race) === name).length;
      return count > 0 ? [counted(count, name)] : [];
    })).join(", ");
    if (counts !== "" || head === null) return counts;
    const no = head.known > 0 ? "new race" : "race";
    return head.unseen.length > 0 ? `Incomplete, no ${no} seen` : `No ${no} in this run`;
  }

  describeRaces() {
    const { races, headOfRaces: head } = this, section = at("races"), title = this.racesInWords();
    section.hidden = title === "";
    section.replaceChildren();
    this.nameTrace();
    if (section.hidden) return;
    section.append(element("h2", {}, title));
    for (const why of head?.unseen ?? []) section.append(element("p", { className: "unseen" }, `Not all was seen: ${why}`));
    const leftOut = [[head?.known, "in the baseline"], [head?.silenced, "silenced"]].filter(([count]) => count > 0);
    if (leftOut.length > 0) section.append(element("p", { className: "quiet", id: "leftOut" }, leftOut.map(([count, words]) => `${count} ${words}`).join(", ")));
    if (races.length === 0) return;
    const turn = (id, words, key) => element("button", { type: "button", id, title: `${words} (${key})` }, words);
    section.append(element("div", { id: "turn" }, turn("raceBefore", "‹ Previous", "p"), element("span", { id: "turned" }), turn("raceBehind", "Next ›", "n")));
    if (races.length === 1) return;
    const buttons = races.slice(0, MOST_LISTED).map((race, place) => element("li", {}, this.raceButton(race, place)));
    const list = element("details", { id: "allRaces", open: races.length <= FEW_RACES }, element("summary", {}, "All of them"), element("ul", {}, ...buttons));
    if (races.length > MOST_LISTED) list.append(element("p", { className: "quiet" }, `and ${races.length - MOST_LISTED} more, by Next and Search`));
    section.append(list);
  }

  raceButton(race, place) {
    const { sides } = race, [one, other] = race.pair, tasks = [...new Set(sides.map(({ task }) => task))], parts = new Set(sides.map(({ part }) => part));
    const where = this.partCount > 1 ? `; part ${[...parts].join(" and ")}` : "";
    const line = !race.isDeadlock && isOneLine(sides) ? `${one.kind}, ${other.kind} ${placeIn(one)}` : sides.map((side) => `${side.kind} ${placeIn({ ...side, function: "" })}`).join(", ");
    const button = element("button", { type: "button" }, element("strong", {}, race.thing), element("span", {}, line),
      element("span", { className: "quiet" }, `${race.isDeadlock ? `${nameOfRace(race)}; ` : stateOfRace(race) ? `${stateOfRace(race)}; ` : ""}${tasks.join(", ")}; ${timesOf(race)}${where}`));
    button.dataset.race = place;
    button.setAttribute("aria-pressed", "false");
    return button;
  }

  /** Says which race it is, and first why. */
  describeRace(section, race) {
    const { thing, made, why, sides } = race;
    section.append(element("h2", {}, `${capital(nameOfRace(race))} on ${thing}`), element("p", { id: "reason" }, `${capital(why)}.`),
      element("ul", { id: "sides" }, ...sides.map((side) => element("li", {}, this.sideButton(side)))), ...this.locksHeld(race),
      element("p", { className: "quiet" }, `Seen ${timesOf(race)}${made === "" ? "" : race.isDeadlock ? `, with locks ${made}` : `, on ${made}`}`));
  }

  /** Which locks each side held, if the journal tells it of both and one held some. A deadlock names them already. */
  locksHeld({ sides, isDeadlock }) {
    const held = isDeadlock ? [] : sides.map((side) => this.heldBy(side));
    if (held.includes(null) || held.every((names) => names === "")) return [];
    const words = sides.map(({ task }, place) => `${task} held ${held[place] === "" ? "no lock" : held[place]}`).join("; ");
    return [element("p", { id: "held" }, `${words}.`)];
  }

  /** The locks that a side held, or null if the journal does not tell, or tells of several such touches with other locks. */
  heldBy({ part, event, kind, file, line }) {
    const lines = part === this.part ? this.labels.get(event)?.lines ?? [] : [];
    const held = new Set(lines.filter((one) => one.isTouch && one.kind === kind && one.source === `${file}:${line}`).map((one) => one.held));
    return held.size === 1 ? [...held][0] : null;
  }

  sideButton(side) {
    const where = side.part === this.part ? "" : ` (part ${side.part})`;
    const words = `${side.task} ${KINDS_IN_WORDS[side.kind] ?? side.kind} ${isLockSide(side) ? "at " : ""}${placeIn(side)}: event\u00a0${side.event}${where}`;
    const button = element("button", { type: "button" }, words);
    if (side.part === this.part) button.dataset.event = side.event;
    else Object.assign(button.dataset, { part: side.part, eventThere: side.event });
    return button;
  }

  describeSource(section, { sides, isDeadlock }) {
    if (!isDeadlock && isOneLine(sides)) section.append(sourceOf(sides));
    else for (const side of sides) section.append(sourceOf([side]));
  }

  /** Writes what the page shows over it, and into its title. */
  nameTrace() {
    const { program, trace } = this, races = this.racesInWords(), isRacy = this.races.length > 0;
    const tenant = trace?.header?.tenant, name = clipped(program || this.name, MOST_TITLE);
    const where = name === "" ? "" : ` ${isRacy ? "in" : "of"} ${name}`, plain = tenant === undefined ? "Picture of a trace" : `Trace of ${tenant}`;
    const title = races !== "" ? `${races}${where}` : name === "" ? plain : `Trace of ${name}`;
    at("title").textContent = title;
    at("title").title = title;
    at("title").classList.toggle("racy", isRacy);
    document.title = title;
  }
};
