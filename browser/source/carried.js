// What the page carries

/** The bytes that stand there in base 64. */
function bytesOf(text) {
  if (Uint8Array.fromBase64) return Uint8Array.fromBase64(text);
  const letters = atob(text), bytes = new Uint8Array(letters.length);
  for (let place = 0; place < letters.length; place++) bytes[place] = letters.charCodeAt(place);
  return bytes;
}

/** The bytes that the page carries there, packed by gzip and in base 64, or null. */
async function carried(id) {
  const text = at(id).textContent.trim();
  if (text === "") return null;
  const unpacked = new Blob([bytesOf(text)]).stream().pipeThrough(new DecompressionStream("gzip"));
  return new Uint8Array(await new Response(unpacked).arrayBuffer());
}

/** Where the page carries what is of a part. The first one stands where that of a run without parts does. */
const idOf = (name, part) => part === 1 ? name : `${name}-${part}`;

/** Opens the export that the page carries, or a part of it: what is shown comes first, and the stamps last. */
async function openCarried(part, then = () => {}) {
  if (at(idOf("export", part)) === null || at(idOf("export", part)).textContent.trim() === "") return;
  tell("Unpacking the export.", " ");
  at("invitation").hidden = true;
  const opening = page.opened, [bytes, labels] = [await carried(idOf("export", part)), await carried(idOf("labels", part))];
  const races = await carried("carriedRaces");
  if (opening !== page.opened) return;
  const text = (packed) => new TextDecoder().decode(packed), trace = readExport(bytes);
  page.labels.clear();
  page.waits = true;
  page.part = part;
  page.show(trace, "");
  if (labels !== null && page.isShown) page.openLabels(text(labels));
  if (races !== null && page.isShown) page.openRaces(text(races));
  page.waits = false;
  page.begin();
  if (page.isShown) then();
  await new Promise((resolve) => requestAnimationFrame(() => setTimeout(resolve)));
  const stamps = await carried(idOf("stamps", part));
  if (page.trace !== trace) return;
  if (stamps !== null) trace.packed = new PackedStamps(stamps);
  page.describeChosen();
  page.compare();
}

/** The first part in which the first race has a touch. */
async function partOfFirstRace() {
  const list = await carried("carriedRaces"), rows = list === null ? [] : new TextDecoder().decode(list).split("\n");
  const first = rows.map((row) => raceOf(objectIn(row))).find((race) => race !== null);
  return first === undefined ? 1 : Math.min(...first.sides.map(({ part }) => part));
}

/** Opens the part that the address names, else the one with the first race. */
async function openFirst() {
  const about = await carried("carriedAbout"), words = new URLSearchParams(location.hash.slice(1));
  page.useAbout(about === null ? null : objectIn(new TextDecoder().decode(about)));
  const isAsked = words.has("part") || words.has("event") || page.partCount === 1;
  const part = isAsked ? wholeNumber(words.get("part") ?? "") : await partOfFirstRace();
  await openCarried(part >= 1 && part <= page.partCount ? part : 1);
}
