// Saving the picture

/** Saves what is shown. */
const Saving = (Base) => class extends Base {
  /** What is shown, as an SVG, with what the page says of it for who cannot see it. */
  svg() {
    const { chosen } = this.view, pair = at("words")?.textContent ?? (chosen > 0 ? `Event ${chosen} is chosen.` : "");
    const said = [at("told").textContent, at("progress").textContent, pair, at("hidden").textContent];
    return this.view.svg(document.title, said.filter((words) => words !== "").join(" "));
  }

  saveSvg() {
    if (!this.isShown) return;
    const address = URL.createObjectURL(new Blob([this.svg()], { type: "image/svg+xml" }));
    element("a", { href: address, download: "picture.svg" }).click();
    setTimeout(() => URL.revokeObjectURL(address), REST_BEFORE_REVOKING);
  }
};
