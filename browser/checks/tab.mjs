// What the checks do with a page: opening exports, pressing buttons, and reading what it shows.

const isDone = () => typeof page !== "undefined" && page.trace !== null && page.verdict !== null;

/** Opens a page that carries an export, and waits until that is judged. */
export async function opened(tab, path, hash = "") {
  await tab.open(path, hash);
  await tab.until(isDone);
  await tab.frame();
}

/** Opens a page that carries an export, and waits until that is shown: the check of a great one takes longer. */
export async function shown(tab, path, hash = "") {
  await tab.open(path, hash);
  await tab.until(() => typeof page !== "undefined" && page.isShown === true && !page.waits && (page.verdict !== null || page.worker !== null));
  await tab.frame();
}

/** Gives a file to the page's picker, and waits until it is judged. */
export async function picked(tab, path) {
  const before = await tab.run(() => page.opened);
  await tab.pick("#file", path);
  await tab.until((count) => page.opened > count + 1 && page.verdict !== null, before);
  await tab.frame();
}

/** What is told of the export, without the title and the progress. */
export const notice = (tab) => text(tab, "#told");
export const chosen = (tab) => text(tab, "#chosen h2");

export async function text(tab, selector) {
  const found = await tab.run((sought) => document.querySelector(sought)?.textContent ?? "", selector);
  return found.trim();
}

/** Where the event is in the window. */
export const placeOf = (tab, event) => tab.run((sought) => {
  const box = document.getElementById("canvas").getBoundingClientRect(), { view } = page;
  view.draw();
  return [box.left + view.x(view.layout.times[sought]), box.top + view.y(view.layout.lane(sought))];
}, event);

/** The texts that the picture draws, each with its place. */
export const written = (tab) => tab.run(() => {
  const { view } = page, texts = [];
  view.context.fillText = (words, x, y) => texts.push([words, x, y]);
  view.draw();
  delete view.context.fillText;
  return texts;
});

/** Clicks on the middle of what the selector finds. */
export async function press(tab, selector) {
  const [x, y] = await tab.run((sought) => {
    const found = document.querySelector(sought);
    found.scrollIntoView({ block: "nearest" });
    const { left, top, width, height } = found.getBoundingClientRect();
    return [left + width / 2, top + height / 2];
  }, selector);
  await tab.click(x, y);
}

export const pause = (time) => new Promise((resolve) => setTimeout(resolve, time));
