// The page around the picture

/** What a journal is of: its processes if there are several, else the file of its first line that has one. */
function programOf(labels, processes) {
  if (processes.length > 1) return processes.join(", ");
  for (const { lines } of labels.values()) for (const { source } of lines) if (source !== "") return fileName(source.slice(0, source.lastIndexOf(":")));
  return "";
}

class Page extends Parting(Panes(Reaching(Racing(WithLabels(Search(Panel(Tips(Choosing(Filtering(Saving(Opening(Object)))))))))))) {
  constructor() {
    super();
    this.processes = new Processes();
    this.clocks = null;
    this.worker = null;
    this.races = [];
    this.racePlace = -1;
    this.folded = new Set();
    this.shared = new Set();
    this.kept = new Set();
    this.openedFolds = new Set();
    this.closedFolds = new Set();
    this.own = null;
    this.ownTasks = new Set();
    this.groupsOfTasks = this.familiesOfTasks = null;
    this.headOfRaces = null;
    this.racingTouches = new Map();
    this.program = "";
    this.part = this.partCount = 1;
    this.waits = this.isHinted = false;
    this.view = new View(at("canvas"));
    this.labels = this.view.labelsOfEvents;
    this.view.labelOf = (event) => this.labelInPicture(event);
    this.map = new Minimap(this.view, at("map"));
    this.view.drawn = () => {
      this.reachLater();
      this.beside.follow();
      this.map.follow();
    };
    this.beside = new Beside(this);
    this.trace = null;
    this.name = "";
    this.layouts = new Map();
    this.isPairing = false;
    this.opened = 0;
    this.lastInput = -Infinity;
    this.buttons = new Map();
  }

  /** Tells how to move, which takes some of the room. */
  tellHint() {
    const { view, map } = this, isWhole = view.isWhole;
    at("hint").hidden = this.isHinted;
    view.resize();
    map.measure();
    if (isWhole) view.whole();
  }

  /** Shows what there is to see first: what the address says, else the first race, else the whole. */
  begin() {
    if (!this.isShown) return;
    this.useLayout(false);
    this.tellParts();
    if (this.program === "") this.program = programOf(this.labels, this.processes.begun) || fileName(this.races[0]?.sides[0].file ?? "");
    this.describeRaces();
    this.tellHint();
    const words = new URLSearchParams(location.hash.slice(1)), asked = wholeNumber(words.get("part") ?? "1");
    if (asked === this.part && (words.has("event") || words.has("time"))) this.readAddress();
    const isHere = ({ sides }) => sides.some(({ part }) => part === this.part), first = this.races.findIndex(isHere);
    if (this.view.chosen === 0 && first >= 0 && !(asked === this.part && words.has("event"))) this.chooseRace(first, false);
    else this.describeChosen();
  }
}
