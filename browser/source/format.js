// The format of an export: its limits, the kinds of events, and the reasons for which a line is faulty

const MOST_BYTES = 65536, MOST_EVENTS = 16384, MOST_JSON_LEVELS = 127, MOST_STAMP_LEVELS = 2048;
const KINDS = ["local", "spawn", "send", "recv", "end", "join"];
const [LOCAL, SPAWN, SEND, RECV, END, JOIN] = KINDS.keys();
const REASONS = ["",
  "The line is no JSON of at most 127 levels, or it has more than 65536 bytes.",
  "The line is no object with exactly the keys and values of an event, or of a header in line 1.",
  "The number of the event is not that of the line, the header not counted, or is above 16384.",
  "The predecessors do not increase, or one of them is no earlier event.",
  "The stamp is no text of a stamp: its shape is wrong, it is not normal, or it is too large.",
  "The trees of this event and of an earlier one do not compare as the predecessors say."];

/** A line is faulty, for this reason. */
class Fault {
  constructor(line, reason) {
    this.line = line;
    this.reason = reason;
  }
}
