// Reading JSON from bytes

const NOT_WHOLE = Symbol("a number that is not whole, or beyond 64 bits");
const OTHER = Symbol("true, false or null");
const NO_JSON = Symbol("no JSON"), NO_STAMP = Symbol("no stamp"), TOO_WIDE = Symbol("a sum beyond the exact numbers");
const isDigit = (byte) => byte >= 48 && byte <= 57;
const utf8 = new TextDecoder("utf-8", { fatal: true, ignoreBOM: true });

/** A text of JSON: where it stands between its quotes, or what it says where that is another thing. */
class Text {
  constructor(from, to, said) {
    this.from = from;
    this.to = to;
    this.said = said;
  }

  string(bytes) {
    if (this.said !== null) return this.said;
    let string = "";
    for (let at = this.from; at < this.to; at++) string += String.fromCharCode(bytes[at]);
    return string;
  }
}

/** Reads JSON from bytes, one value at a time. It throws NO_JSON where there is none. */
class Json {
  constructor(bytes) {
    this.bytes = bytes;
    this.at = this.to = 0;
  }

  /** The one value between these places. */
  whole(from, to) {
    this.at = from;
    this.to = to;
    const value = this.value(0);
    this.blanks();
    if (this.at !== to) throw NO_JSON;
    return value;
  }

  next() {
    return this.at < this.to ? this.bytes[this.at] : -1;
  }

  blanks() {
    for (let byte = this.next(); byte === 32 || byte === 9 || byte === 13 || byte === 10; byte = this.next()) this.at++;
  }

  take(byte) {
    if (this.next() !== byte) throw NO_JSON;
    this.at++;
  }

  value(levels) {
    this.blanks();
    switch (this.next()) {
      case 0x7b: return this.object(levels + 1);
      case 0x5b: return this.array(levels + 1);
      case 0x22: return this.text();
      case 0x74: return this.word("true");
      case 0x66: return this.word("false");
      case 0x6e: return this.word("null");
      default: return this.number();
    }
  }

  word(word) {
    for (let place = 0; place < word.length; place++) this.take(word.charCodeAt(place));
    return OTHER;
  }

  enter(levels) {
    if (levels > MOST_JSON_LEVELS) throw NO_JSON;
    this.at++;
    this.blanks();
  }

  /** Whether another part follows; the comma or the closing byte is taken. */
  goesOn(closing) {
    this.blanks();
    if (this.next() === closing) {
      this.at++;
      return false;
    }
    this.take(0x2c);
    return true;
  }

  array(levels) {
    this.enter(levels);
    const parts = [];
    if (this.next() === 0x5d) {
      this.at++;
      return parts;
    }
    do parts.push(this.value(levels)); while (this.goesOn(0x5d));
    return parts;
  }

  object(levels) {
    this.enter(levels);
    const members = new Map();
    if (this.next() === 0x7d) {
      this.at++;
      return members;
    }
    do {
      this.blanks();
      const key = this.text().string(this.bytes);
      this.blanks();
      this.take(0x3a);
      members.set(key, this.value(levels));
    } while (this.goesOn(0x7d));
    return members;
  }

  digits() {
    const from = this.at;
    while (this.next() >= 48 && this.next() <= 57) this.at++;
    if (this.at === from) throw NO_JSON;
  }

  number() {
    const from = this.at;
    if (this.next() === 0x2d) this.at++;
    if (this.next() === 48) this.at++;
    else this.digits();
    const whole = this.at;
    if (this.next() === 0x2e) {
      this.at++;
      this.digits();
    }
    if (this.next() === 0x65 || this.next() === 0x45) {
      this.at++;
      if (this.next() === 0x2b || this.next() === 0x2d) this.at++;
      this.digits();
    }
    return this.numberBetween(from, whole);
  }

  numberBetween(from, whole) {
    const { bytes, at } = this;
    if (whole === at && at - from <= 15 && bytes[from] !== 0x2d) {
      let number = 0;
      for (let place = from; place < at; place++) number = number * 10 + bytes[place] - 48;
      return number;
    }
    const text = new Text(from, at, null).string(bytes);
    if (!Number.isFinite(Number(text))) throw NO_JSON;
    const isWhole = whole === at && bytes[from] !== 0x2d && at - from <= 20 && BigInt(text) < 2n ** 64n;
    return isWhole ? Number(text) : NOT_WHOLE;
  }

  text() {
    this.take(0x22);
    const { bytes, to } = this, from = this.at;
    let at = from;
    while (at < to && bytes[at] !== 0x22 && bytes[at] !== 0x5c && bytes[at] >= 32 && bytes[at] < 128) at++;
    this.at = at;
    if (this.next() === 0x22) {
      this.at++;
      return new Text(from, at, null);
    }
    return new Text(from, from, this.longText(from));
  }

  /** A text with escapes or with characters beyond ASCII. */
  longText(from) {
    let said = "", plain = from;
    for (;;) {
      const byte = this.next();
      if (byte < 32) throw NO_JSON;
      if (byte === 0x22 || byte === 0x5c) said += this.decoded(plain);
      this.at++;
      if (byte === 0x22) return said;
      if (byte === 0x5c) {
        said += this.escape();
        plain = this.at;
      }
    }
  }

  decoded(from) {
    try {
      return utf8.decode(this.bytes.subarray(from, this.at));
    } catch {
      throw NO_JSON;
    }
  }

  escape() {
    const place = '"\\/bfnrtu'.indexOf(String.fromCharCode(this.next()));
    if (this.next() < 0 || place < 0) throw NO_JSON;
    this.at++;
    return place < 8 ? '"\\/\b\f\n\r\t'[place] : this.escapedUnits();
  }

  escapedUnits() {
    const unit = this.unit();
    if (unit < 0xd800 || unit > 0xdfff) return String.fromCharCode(unit);
    this.take(0x5c);
    this.take(0x75);
    const other = this.unit();
    if (unit > 0xdbff || other < 0xdc00 || other > 0xdfff) throw NO_JSON;
    return String.fromCharCode(unit, other);
  }

  unit() {
    let unit = 0;
    for (let digit = 0; digit < 4; digit++) {
      const value = this.next() < 0 ? -1 : "0123456789abcdef".indexOf(String.fromCharCode(this.next()).toLowerCase());
      if (value < 0) throw NO_JSON;
      unit = unit * 16 + value;
      this.at++;
    }
    return unit;
  }
}
