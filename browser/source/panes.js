// What stands beside the picture, and how wide it is

const LEAST_PANEL = 200, PANEL_STEP = 30, LEAST_PICTURE = 240;

/** Shows and hides the filters, the panel and the line that tells how to move. */
const Panes = (Base) => class extends Base {
  toggleFilters() {
    const filters = at("filters");
    filters.hidden = !filters.hidden;
    at("filter").setAttribute("aria-expanded", String(!filters.hidden));
  }

  togglePanel() {
    const isClosed = document.body.classList.toggle("closed");
    at("hide").setAttribute("aria-expanded", String(!isClosed));
  }

  /** Makes the panel so wide, but leaves room for the picture. */
  widen(width) {
    const most = Math.max(LEAST_PANEL, at("panel").parentElement.clientWidth - LEAST_PICTURE), wide = Math.round(Math.max(LEAST_PANEL, Math.min(most, width)));
    document.documentElement.style.setProperty("--panel", `${wide}px`);
    for (const [name, value] of [["now", wide], ["min", LEAST_PANEL], ["max", most]]) at("divider").setAttribute(`aria-value${name}`, String(value));
  }

  /** Lets a pointer or the arrow keys move the divider. */
  listenToDivider() {
    const divider = at("divider");
    divider.addEventListener("pointerdown", (event) => divider.setPointerCapture(event.pointerId));
    divider.addEventListener("pointermove", (event) => {
      if (divider.hasPointerCapture(event.pointerId)) this.widen(document.documentElement.clientWidth - event.clientX);
    });
    divider.addEventListener("keydown", (event) => {
      const step = { ArrowLeft: PANEL_STEP, ArrowRight: -PANEL_STEP }[event.key];
      if (step === undefined) return;
      event.preventDefault();
      this.widen(at("panel").offsetWidth + step);
    });
  }

  /** Tells how to move, until somebody did. */
  hideHint() {
    at("hint").hidden = this.isHinted = true;
  }
};
