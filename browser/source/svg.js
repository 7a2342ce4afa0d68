// The picture as an SVG

const SVG = "http://www.w3.org/2000/svg";
const tenths = (number) => String(Math.round(number * 10) / 10);

/** Takes what the picture draws on a canvas, and makes an SVG of it. It knows the calls that the picture makes. */
class SvgContext {
  constructor(width, height, title, description) {
    this.document = document.implementation.createDocument(SVG, "svg", null);
    this.root = this.document.documentElement;
    for (const [name, value] of [["width", width], ["height", height], ["viewBox", `0 0 ${width} ${height}`], ["role", "img"]]) {
      this.root.setAttribute(name, value);
    }
    for (const [tag, text] of [["title", title], ["desc", description]]) this.add(tag, {}).textContent = printable(text);
    Object.assign(this, { path: [], dash: [], globalAlpha: 1, lineWidth: 1, strokeStyle: "#000", fillStyle: "#000" });
  }

  add(tag, attributes) {
    const made = this.document.createElementNS(SVG, tag);
    for (const [name, value] of Object.entries(attributes)) made.setAttribute(name, value);
    if (this.globalAlpha < 1) made.setAttribute("opacity", this.globalAlpha);
    return this.root.appendChild(made);
  }

  beginPath() {
    this.path = [];
  }

  moveTo(x, y) {
    this.path.push(`M${tenths(x)} ${tenths(y)}`);
  }

  lineTo(x, y) {
    this.path.push(`L${tenths(x)} ${tenths(y)}`);
  }

  closePath() {
    this.path.push("Z");
  }

  /** A whole circle: the picture draws no other arcs. */
  arc(x, y, radius) {
    const [left, right, middle, wide] = [x - radius, x + radius, y, radius].map(tenths);
    this.path.push(`M${right} ${middle}A${wide} ${wide} 0 1 1 ${left} ${middle}A${wide} ${wide} 0 1 1 ${right} ${middle}`);
  }

  rect(x, y, width, height) {
    this.path.push(`M${tenths(x)} ${tenths(y)}h${tenths(width)}v${tenths(height)}h${tenths(-width)}Z`);
  }

  fill(rule = "nonzero") {
    if (this.path.length > 0) this.add("path", { d: this.path.join(""), fill: this.fillStyle, "fill-rule": rule });
  }

  stroke() {
    if (this.path.length === 0) return;
    const dashes = this.dash.length > 0 ? { "stroke-dasharray": this.dash.join(" ") } : {};
    this.add("path", { d: this.path.join(""), fill: "none", stroke: this.strokeStyle, "stroke-width": this.lineWidth, ...dashes });
  }

  setLineDash(dash) {
    this.dash = dash;
  }

  fillRect(x, y, width, height) {
    this.add("rect", { x: tenths(x), y: tenths(y), width: tenths(width), height: tenths(height), fill: this.fillStyle });
  }

  fillText(text, x, y) {
    const look = { fill: this.fillStyle, "font-family": FAMILY, "font-size": FONT_SIZE,
      ...this.font?.startsWith("bold") ? { "font-weight": "bold" } : {} };
    this.add("text", { x: tenths(x), y: tenths(y), ...look }).textContent = printable(text);
  }

  text() {
    return new XMLSerializer().serializeToString(this.document);
  }
}

/** The text with a mark in place of each character that XML has no place for. */
const printable = (text) => text.toWellFormed().replace(/[^\t\n\r -\ufffd\u{10000}-\u{10ffff}]/gu, "\ufffd");
