// The picture

/** The picture: which part of the layout is in view, and how it is drawn. `left` is a time, `top` a lane. */
class View extends Measuring(Crowding(Banding(Labelling(Drawing(Looking(Moving(Object))))))) {
  constructor(canvas) {
    super();
    this.canvas = canvas;
    this.context = canvas.getContext("2d");
    this.labels = new Labels();
    this.labelsOfEvents = new Map();
    this.marks = new Int32Array(MOST_EVENTS + 2);
    this.edges = new Int32Array(2 * MOST_EVENTS + 2);
    this.runFrom = new Float64Array(5);
    this.layout = null;
    this.standings = null;
    this.racing = new Set();
    this.isRace = false;
    this.chains = [];
    this.hiddenWords = "";
    this.times = null;
    this.clocks = null;
    this.wordsOfMessages = new Map();
    this.labelOf = () => "";
    this.high = LANE;
    this.ratio = 1;
    this.chosen = this.other = 0;
    this.left = 0;
    this.top = 0;
    this.scale = 60;
    this.width = this.height = 1;
    this.mapHeight = 0;
    this.isAsked = false;
    this.drawn = () => {};
  }

  draw() {
    const { context, width, height } = this;
    context.fillStyle = palette.paper;
    context.fillRect(0, 0, width, height);
    context.font = FONT;
    context.textBaseline = "alphabetic";
    this.letter ??= context.measureText("mmmmmmmmmm").width / 10;
    if (this.layout === null) return;
    this.findRange();
    const count = this.count = this.findMarks();
    this.isNear = count <= MOST_SMALL && this.countLarge(count) <= MOST_MARKS && this.scale >= NEAR_LANE && this.high >= NEAR_LANE;
    this.findEdges();
    this.labels.clear();
    this.drawHeadings();
    if (this.isDense) this.drawDensity();
    else this.drawWhatIsTold(count);
    this.drawRacing(count);
    this.drawPair();
    this.drawChosen();
    if (this.isNear) this.takeMarks(count);
    this.writeHeadings();
    this.writeFolds();
    this.drawNames();
    this.drawHidden();
    if (this.isNear && this.countLarge(count) <= MOST_NUMBERS) this.drawLabels(count);
    this.drawRulers();
    this.drawn();
  }

  countLarge(count) {
    let large = 0;
    for (let place = 0; place < count; place++) if (!this.isSmall(this.marks[place])) large++;
    return large;
  }

  drawWhatIsTold(count) {
    this.drawFolds();
    this.drawLanes();
    this.drawChains();
    this.drawEdges();
    if (this.isNear) this.drawMarks(count);
    else this.drawRuns();
    if (this.isNear) this.drawSkews(count);
  }

  /** Draws all of it in little, for the map. */
  drawLittle() {
    const { context, layout, width, height } = this;
    context.fillStyle = palette.paper;
    context.fillRect(0, 0, width, height);
    this.scale = width / Math.max(1, layout.columns - 1);
    this.high = height / layout.height;
    this.left = 1;
    this.top = (MARGIN + this.head) / this.high;
    this.findRange();
    this.isNear = false;
    this.drawHeadings();
    this.drawDensity();
    this.count = this.findMarks();
    this.drawRacing(this.count);
  }

  /** What is shown, as the text of an SVG. */
  svg(title, description) {
    const { context } = this;
    this.context = new SvgContext(this.width, this.height, title, description);
    try {
      this.draw();
      return this.context.text();
    } finally {
      this.context = context;
    }
  }

}
