// Reading an export

const KEYS = ["event", "kind", "name", "preds", "stamp", "task"];
const HEADER_KEYS = ["events", "messages", "tasks", "tenant", "version"], MOST = [16384, 16384, 2048], VERSION = 2;
const NAME = /^[A-Za-z0-9_]{1,24}$/;
const STARTED = "start process ";

/** The short text that a value is, else "". A longer one is no name and no kind either. */
function wordOf(value, bytes) {
  if (!(value instanceof Text) || value.to - value.from > 24) return "";
  return value.string(bytes);
}

const hasKeys = (value, keys) => value instanceof Map && value.size === keys.length && keys.every((key) => value.has(key));

/** The JSON of a line; NO_JSON where it is none, or too long. */
function valueOf(json, from, to) {
  if (to - from > MOST_BYTES) return NO_JSON;
  try {
    return json.whole(from, to);
  } catch (thrown) {
    if (thrown === NO_JSON) return NO_JSON;
    throw thrown;
  }
}

/** The header that the value is: a tenant's name and its limits. Null where it is none. */
function headerOf(value, bytes) {
  if (!hasKeys(value, HEADER_KEYS)) return null;
  const [events, messages, tasks, tenantText, version] = HEADER_KEYS.map((key) => value.get(key));
  const tenant = wordOf(tenantText, bytes);
  const areLimits = [events, messages, tasks].every((limit, place) => typeof limit === "number" && limit >= 1 && limit <= MOST[place]);
  return areLimits && NAME.test(tenant) && version === VERSION ? { tenant, events, tasks, messages } : null;
}

/** What the value of a line lists, as the six values of its object, or the reason for which the line is faulty. The edges and the
 * number are looked at as its reasons say; the stamp is looked at by itself. */
function listedIn(value, json, number) {
  if (value === NO_JSON) return 1;
  if (!hasKeys(value, KEYS)) return 2;
  const [event, kindText, nameText, preds, stamp, taskText] = KEYS.map((key) => value.get(key));
  const kind = KINDS.indexOf(wordOf(kindText, json.bytes));
  const name = wordOf(nameText, json.bytes), task = wordOf(taskText, json.bytes);
  const isNamed = kind === LOCAL || kind === END ? name === "-" : kind > 0 && NAME.test(name);
  const arePreds = Array.isArray(preds) && preds.length <= 2 && preds.every((pred) => typeof pred === "number");
  if (typeof event !== "number" || !isNamed || !arePreds || !(stamp instanceof Text) || !NAME.test(task)) return 2;
  if (event !== number || number > MOST_EVENTS) return 3;
  const steps = [0, ...preds, number];
  if (!steps.every((step, place) => place === 0 || steps[place - 1] < step)) return 4;
  return { kind, name, task, preds, stamp };
}

/** How many lines the bytes have. */
function countLines(bytes) {
  let count = 0;
  for (let at = bytes.indexOf(10); at >= 0; at = bytes.indexOf(10, at + 1)) count++;
  return count + (bytes.length > 0 && bytes[bytes.length - 1] !== 10 ? 1 : 0);
}

/** The trace that the bytes list, up to the first line that is faulty for one of the first four reasons, which `trace.fault` has
 * then. No stamp is looked at yet, and they may have been taken out of the lines. */
function readExport(bytes) {
  const trace = new Trace(bytes, Math.min(countLines(bytes), MOST_EVENTS)), json = new Json(bytes);
  for (let from = 0, number = 1; from < bytes.length; number++) {
    const end = bytes.indexOf(10, from), to = end < 0 ? bytes.length : end;
    const value = valueOf(json, from, end > from && bytes[end - 1] === 13 ? end - 1 : to);
    from = to + 1;
    trace.header ??= number === 1 ? headerOf(value, bytes) : null;
    if (number === 1 && trace.header !== null) continue;
    const listed = listedIn(value, json, number - trace.ahead());
    if (typeof listed === "number") {
      trace.fault = new Fault(number, listed);
      break;
    }
    trace.add(listed);
  }
  return trace;
}
