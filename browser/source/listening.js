// The beginning

if (!IS_WORKER) usePalette();
const page = IS_WORKER ? null : new Page();

function listen() {
  darkness.addEventListener("change", () => {
    usePalette();
    page.view.ask();
    if (page.trace === null) return;
    page.describeTrace();
    page.describeChosen();
  });
  for (const input of ["pointerdown", "keydown"]) {
    document.addEventListener(input, () => {
      page.lastInput = performance.now();
    });
  }
  document.addEventListener("click", onClick);
  page.listenToDivider();
  at("part").addEventListener("change", () => page.openPart(Number(at("part").value)));
  at("events").addEventListener("focusin", ({ target }) => {
    const event = Number(target.dataset.event ?? 0), { view } = page;
    if (event === 0) return;
    page.showTip(page.eventTip(event), view.x(view.layout.times[event]), view.y(view.layout.lane(event)));
  });
  at("events").addEventListener("focusout", () => page.hideTip());
  document.addEventListener("keydown", onKey);
  document.addEventListener("dragover", (event) => {
    event.preventDefault();
    at("stage").classList.add("dropping");
  });
  document.addEventListener("dragleave", (event) => {
    if (event.relatedTarget === null) at("stage").classList.remove("dropping");
  });
  document.addEventListener("drop", onDrop);
  at("file").addEventListener("change", () => {
    if (at("file").files.length > 0) page.openFile(at("file").files[0]);
    at("file").value = "";
  });
  at("besideFile").addEventListener("change", () => {
    if (at("besideFile").files.length > 0) page.beside.openFile(at("besideFile").files[0]);
    at("besideFile").value = "";
  });
  at("search").addEventListener("input", () => page.search(at("search").value));
  at("search").addEventListener("keydown", (event) => {
    const first = at("found").querySelector("button");
    if (event.key !== "Enter" || first === null || at("found").hidden) return;
    if (first.dataset.race !== undefined) page.chooseRace(Number(first.dataset.race));
    else page.choose(Number(first.dataset.event), { closer: true });
  });
  at("filters").addEventListener("change", ({ target }) => page.applyFilters(target));
  at("time").addEventListener("change", () => {
    if (!page.trace) return;
    page.useLayout(true);
    page.writeAddress();
  });
  window.addEventListener("hashchange", () => {
    if (page.isShown) page.readAddress();
  });
  new Pointers(page, at("canvas"), true);
  new Pointers(page, at("besideCanvas"), false);
  new ResizeObserver(() => {
    const { view } = page, isThere = view.layout !== null, isWhole = isThere && view.isWhole;
    view.resize();
    page.beside.view.resize();
    if (isWhole) view.whole();
    else if (isThere && page.lastInput === -Infinity) view.showChosen();
    else if (isThere) view.keepInside();
  }).observe(at("stage"));
  page.view.resize();
  openFirst().catch(() => {
    page.waits = false;
    tell("The export in this page cannot be unpacked.");
  });
}

if (IS_WORKER) self.onmessage = ({ data }) => checkInWorker(data);
else listen();
