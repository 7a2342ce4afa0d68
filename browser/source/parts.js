// The parts of a long run

/** Opens any part of a run that the page carries. */
const Parting = (Base) => class extends Base {
  /** Takes what the page says of itself: the program that ran, and how many parts it has. */
  useAbout(about) {
    this.program = typeof about?.program === "string" ? about.program : "";
    this.partCount = Number.isInteger(about?.parts) && about.parts > 1 ? about.parts : 1;
    this.part = 1;
    at("parts").hidden = this.partCount === 1;
    at("part").replaceChildren(...Array.from({ length: this.partCount }, (_, place) =>
      element("option", { value: String(place + 1) }, `Part ${place + 1}/${this.partCount}`)));
  }

  /** Says of each part how many races have a touch in it, and which parts are beside this one. */
  tellParts() {
    const { part, partCount, races } = this;
    for (const option of at("part").options) {
      const own = Number(option.value), here = races.filter(({ sides }) => sides.some((side) => side.part === own));
      option.textContent = `Part ${own}/${partCount}${here.length > 0 ? `, ${counted(here.length, wordOfRaces(here))}` : ""}`;
    }
    at("part").value = String(part);
    at("partBefore").disabled = part === 1;
    at("partBehind").disabled = part === partCount;
    at("partBefore").textContent = part === 1 ? "‹" : `‹ ${part - 1}`;
    at("partBehind").textContent = part === partCount ? "›" : `${part + 1} ›`;
  }

  /** Somebody opens another export: that is no part of the run. */
  leaveParts() {
    this.useAbout(null);
  }

  /** Opens a part, and goes on then. */
  async openPart(part, then = () => {}) {
    if (part < 1 || part > this.partCount) return;
    await openCarried(part, () => {
      then();
      this.writeAddress();
    });
  }
};
