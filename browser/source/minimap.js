// The map in the corner

const MAP_MARGIN = 8;

/** The whole picture in little, with the part that is in view. A pointer on it moves the view. It is hidden while all is in view. */
class Minimap {
  constructor(view, canvas) {
    this.view = view;
    this.canvas = canvas;
    this.little = new View(canvas);
    this.image = document.createElement("canvas");
    this.key = null;
    const go = (event) => {
      if (event.buttons !== 1) return;
      const box = canvas.getBoundingClientRect();
      this.moveTo((event.clientX - box.left) / box.width, (event.clientY - box.top) / box.height);
    };
    canvas.addEventListener("pointerdown", (event) => {
      canvas.setPointerCapture(event.pointerId);
      go(event);
    });
    canvas.addEventListener("pointermove", go);
  }

  moveTo(partX, partY) {
    const { view } = this, { layout } = view;
    if (layout === null) return;
    view.left = 1 + partX * Math.max(0, layout.columns - 1) - view.width / view.scale / 2;
    view.top = partY * layout.height - view.room / view.high / 2;
    view.keepInside();
    view.ask();
  }

  /** Tells the view how much of its lower end the map takes. */
  measure() {
    const { view, canvas } = this, wasHidden = canvas.hidden;
    canvas.hidden = false;
    view.mapHeight = canvas.clientHeight > 0 ? canvas.clientHeight + 2 * MAP_MARGIN : 0;
    canvas.hidden = wasHidden;
  }

  follow() {
    const { view, canvas } = this;
    canvas.hidden = view.layout === null || view.isWhole;
    if (canvas.hidden || canvas.clientWidth === 0) return;
    if (canvas.width !== canvas.clientWidth * view.ratio || canvas.height !== canvas.clientHeight * view.ratio) this.key = null;
    if (this.key !== view.layout || this.standings !== view.standings || this.colours !== COLOURS) this.paint();
    const context = canvas.getContext("2d"), { width, height } = this.little, { layout } = view;
    context.setTransform(1, 0, 0, 1, 0, 0);
    context.drawImage(this.image, 0, 0);
    context.setTransform(view.ratio, 0, 0, view.ratio, 0, 0);
    const across = (time) => (time - 1) / Math.max(1, layout.columns - 1) * width, down = (lanes) => lanes / layout.height * height;
    const [x, y] = [Math.max(1, across(view.left)), Math.max(1, down(view.top))];
    const [toX, toY] = [Math.min(width - 1, across(view.left + view.width / view.scale)), Math.min(height - 1, down(view.lanesAt(view.height)))];
    context.strokeStyle = palette.chain;
    context.lineWidth = 2;
    context.strokeRect(x, y, Math.max(4, toX - x), Math.max(4, toY - y));
  }

  /** Draws the whole picture once, for all frames in which it stays the same. */
  paint() {
    const { view, little, canvas, image } = this;
    Object.assign(this, { key: view.layout, standings: view.standings, colours: COLOURS });
    Object.assign(little, { ratio: view.ratio, width: canvas.clientWidth, height: canvas.clientHeight, layout: view.layout,
      standings: view.standings, racing: view.racing });
    canvas.width = image.width = little.width * view.ratio;
    canvas.height = image.height = little.height * view.ratio;
    little.context = image.getContext("2d");
    little.context.setTransform(view.ratio, 0, 0, view.ratio, 0, 0);
    little.drawLittle();
  }
}
