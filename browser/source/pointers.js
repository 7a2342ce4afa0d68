// Pointers

/** Pointers on a picture: one pans or chooses, two pan and zoom. On the run beside they pan and zoom both. */
class Pointers {
  constructor(page, canvas, mayChoose) {
    this.page = page;
    this.canvas = canvas;
    this.mayChoose = mayChoose;
    this.down = new Map();
    this.moved = 0;
    canvas.addEventListener("pointerdown", (event) => this.press(event));
    canvas.addEventListener("pointermove", (event) => this.move(event));
    canvas.addEventListener("pointerup", (event) => this.release(event));
    canvas.addEventListener("pointercancel", (event) => this.down.delete(event.pointerId));
    canvas.addEventListener("pointerleave", () => page.hideTip());
    canvas.addEventListener("wheel", (event) => this.wheel(event), { passive: false });
  }

  place(event) {
    const box = this.canvas.getBoundingClientRect();
    return { x: event.clientX - box.left, y: event.clientY - box.top };
  }

  press(event) {
    if (event.button > 0) return;
    this.canvas.setPointerCapture(event.pointerId);
    if (this.down.size === 0) this.moved = 0;
    this.down.set(event.pointerId, this.place(event));
  }

  /** Where the middle of the pointers is, and how far they are from one another. */
  spread() {
    const [one, other = one] = this.down.values();
    return { x: (one.x + other.x) / 2, y: (one.y + other.y) / 2, wide: Math.hypot(one.x - other.x, one.y - other.y) };
  }

  move(event) {
    if (this.down.size === 0 && event.pointerType === "mouse" && this.mayChoose) {
      const { x, y } = this.place(event);
      this.page.tipAt(x, y);
    }
    if (!this.down.has(event.pointerId)) return;
    this.page.hideTip();
    const { view } = this.page, before = this.spread();
    this.page.lastInput = performance.now();
    this.down.set(event.pointerId, this.place(event));
    const after = this.spread();
    this.moved += Math.hypot(after.x - before.x, after.y - before.y) + Math.abs(after.wide - before.wide);
    if (this.moved < 5) return;
    this.page.hideHint();
    view.pan(before.x - after.x, before.y - after.y);
    if (this.down.size > 1 && before.wide > 10 && after.wide > 10) view.zoom(after.wide / before.wide, after.x, after.y);
  }

  release(event) {
    const place = this.down.get(event.pointerId), wasAlone = this.down.size === 1;
    this.down.delete(event.pointerId);
    if (place === undefined || !wasAlone || this.moved >= 5 || !this.mayChoose) return;
    const chosen = this.page.view.eventAt(place.x, place.y, event.pointerType === "mouse" ? 16 : 26);
    const asOther = event.shiftKey || event.ctrlKey || event.metaKey;
    const fold = chosen > 0 ? null : this.page.view.foldAt(place.x, place.y);
    if (chosen > 0) this.page.choose(chosen, { asOther, stays: true });
    else if (fold !== null) this.page.openFold(fold.key);
  }

  wheel(event) {
    event.preventDefault();
    this.page.hideTip();
    this.page.hideHint();
    this.page.lastInput = performance.now();
    const { view } = this.page, unit = event.deltaMode === 1 ? 20 : event.deltaMode === 2 ? 400 : 1;
    const { x, y } = this.place(event);
    if (event.ctrlKey || event.metaKey) view.zoom(Math.exp(-event.deltaY * unit / 300), x, y);
    else if (event.shiftKey && event.deltaX === 0) view.pan(event.deltaY * unit, 0);
    else view.pan(event.deltaX * unit, event.deltaY * unit);
  }
}
