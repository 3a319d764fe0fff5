// mvd.js: a site of `mvd` in JavaScript, and a client of its servers. For browsers and node, with no dependency.
//
//     import { Site, Client } from "./mvd.js";
//     const site = await Site.open("notes");          // kept in IndexedDB, in node in memory
//     await site.claim(url);                          // a number that no other site has
//     await site.put("ada", { city: "Oslo" }, await site.get("ada"));
//     await site.sync(url, { token });
//
// Spellings, digests and refusals are those of docs/FORMATS.md and docs/BEHAVIOUR.md. The parts below stand in this
// order: refusals, SHA-256, JSON, contexts, states, the hash tree, stores, the site, sessions, the client, merges.

// ---------------------------------------------------------------- refusals

const NAMES = {
  1: "BadKey", 2: "BadContext", 3: "BadDocument", 4: "NotObject", 5: "BadNumber", 6: "DocumentTooLong", 8: "Exhausted",
  9: "StateTooLarge", 10: "Full", 11: "DotClash", 14: "BadPath", 16: "SiteMismatch", 33: "BadBody",
};

/** What is refused: its number and its name; of a document the place as a path, of a response its status. */
export class Refused extends Error {
  constructor(number, refusal = NAMES[number], more = {}) {
    super(`refused ${number} ${refusal}${more.at ? ` at ${more.at}` : ""}`);
    this.name = "Refused";
    this.number = number;
    this.refusal = refusal;
    Object.assign(this, more);
  }
}

/** No server answered, or the response was cut. A write may have been stored all the same. */
export class Unreachable extends Error {
  constructor(message, cause) {
    super(message);
    this.name = "Unreachable";
    this.cause = cause;
  }
}

const refuse = (number, more) => { throw new Refused(number, undefined, more); };

const COUNTER_MAX = 281474976710655;
const SITE_MAX = 4294967295;
const DOCUMENT_BYTES = 65536;
const STATE_BYTES = 1150000;
const MOST_KEYS = 1000000;
const DEPTH = 127;

const encoder = new TextEncoder();
const decoder = new TextDecoder();

// ---------------------------------------------------------------- SHA-256 (FIPS 180-4)
// It does not wait, as crypto.subtle does: a transaction of IndexedDB ends where one waits for anything else.

const ROUND = Int32Array.of(
  0x428a2f98, 0x71374491, 0xb5c0fbcf, 0xe9b5dba5, 0x3956c25b, 0x59f111f1, 0x923f82a4, 0xab1c5ed5,
  0xd807aa98, 0x12835b01, 0x243185be, 0x550c7dc3, 0x72be5d74, 0x80deb1fe, 0x9bdc06a7, 0xc19bf174,
  0xe49b69c1, 0xefbe4786, 0x0fc19dc6, 0x240ca1cc, 0x2de92c6f, 0x4a7484aa, 0x5cb0a9dc, 0x76f988da,
  0x983e5152, 0xa831c66d, 0xb00327c8, 0xbf597fc7, 0xc6e00bf3, 0xd5a79147, 0x06ca6351, 0x14292967,
  0x27b70a85, 0x2e1b2138, 0x4d2c6dfc, 0x53380d13, 0x650a7354, 0x766a0abb, 0x81c2c92e, 0x92722c85,
  0xa2bfe8a1, 0xa81a664b, 0xc24b8b70, 0xc76c51a3, 0xd192e819, 0xd6990624, 0xf40e3585, 0x106aa070,
  0x19a4c116, 0x1e376c08, 0x2748774c, 0x34b0bcb5, 0x391c0cb3, 0x4ed8aa4a, 0x5b9cca4f, 0x682e6ff3,
  0x748f82ee, 0x78a5636f, 0x84c87814, 0x8cc70208, 0x90befffa, 0xa4506ceb, 0xbef9a3f7, 0xc67178f2);
const BEGIN = [0x6a09e667, 0xbb67ae85, 0x3c6ef372, 0xa54ff53a, 0x510e527f, 0x9b05688c, 0x1f83d9ab, 0x5be0cd19];
const words = new Int32Array(64);
const turned = (x, n) => (x >>> n) | (x << (32 - n));

function block(sum, view, at) {
  for (let i = 0; i < 16; i++) words[i] = view.getInt32(at + 4 * i);
  for (let i = 16; i < 64; i++) {
    const x = words[i - 15], y = words[i - 2];
    const low = turned(x, 7) ^ turned(x, 18) ^ (x >>> 3), high = turned(y, 17) ^ turned(y, 19) ^ (y >>> 10);
    words[i] = words[i - 16] + low + words[i - 7] + high;
  }
  let [a, b, c, d, e, f, g, h] = sum;
  for (let i = 0; i < 64; i++) {
    const s = (h + (turned(e, 6) ^ turned(e, 11) ^ turned(e, 25)) + ((e & f) ^ (~e & g)) + ROUND[i] + words[i]) | 0;
    const t = ((turned(a, 2) ^ turned(a, 13) ^ turned(a, 22)) + ((a & b) ^ (a & c) ^ (b & c))) | 0;
    h = g; g = f; f = e; e = (d + s) | 0; d = c; c = b; b = a; a = (s + t) | 0;
  }
  sum[0] += a; sum[1] += b; sum[2] += c; sum[3] += d; sum[4] += e; sum[5] += f; sum[6] += g; sum[7] += h;
}

/** The 32 bytes of a text of bytes. */
export function sha256(bytes) {
  const sum = Int32Array.from(BEGIN), whole = bytes.length - bytes.length % 64;
  const view = new DataView(bytes.buffer, bytes.byteOffset, bytes.length);
  for (let at = 0; at < whole; at += 64) block(sum, view, at);
  const rest = new Uint8Array(bytes.length - whole < 56 ? 64 : 128), last = new DataView(rest.buffer);
  rest.set(bytes.subarray(whole));
  rest[bytes.length - whole] = 128;
  last.setUint32(rest.length - 8, Math.floor(bytes.length / 2 ** 29));
  last.setUint32(rest.length - 4, bytes.length << 3);
  for (let at = 0; at < rest.length; at += 64) block(sum, last, at);
  const out = new Uint8Array(32), told = new DataView(out.buffer);
  for (let i = 0; i < 8; i++) told.setInt32(4 * i, sum[i]);
  return out;
}

const HEX = Array.from({ length: 256 }, (_, n) => n.toString(16).padStart(2, "0"));

/** Bytes as lower-case hexadecimal digits. */
export function hex(bytes) {
  let out = "";
  for (let i = 0; i < bytes.length; i++) out += HEX[bytes[i]];
  return out;
}

// ---------------------------------------------------------------- JSON
// A document is kept as its compact text, so no number of it is rounded. The reader agrees with `serde_json` on what is
// a value: no more than 127 arrays and objects within one another, a name's last value counts, no half of a surrogate
// pair, and a number that a double would take for infinity is none.

const HALF = /\p{Surrogate}/u;
const NUMBER = /-?(?:0|[1-9][0-9]*)(\.[0-9]+)?([eE][+-]?[0-9]+)?/y;

/** The order of UTF-8 bytes, which that of UTF-16 is not: there, what stands past U+FFFF comes before U+E000. */
export function byBytes(a, b) {
  const most = Math.min(a.length, b.length);
  for (let i = 0; i < most; i++) {
    let x = a.charCodeAt(i), y = b.charCodeAt(i);
    if (x === y) continue;
    if (x >= 0xd800 && y >= 0xd800) {
      x += x >= 0xe000 ? -0x800 : 0x2000;
      y += y >= 0xe000 ? -0x800 : 0x2000;
    }
    return x - y;
  }
  return a.length - b.length;
}

/** Whether a number's text, of digits and a sign alone, is one of 64 bits with a sign; `-0` is not. */
function isWhole(text) {
  const negative = text[0] === "-", digits = negative ? text.slice(1) : text;
  if (digits === "0") return !negative;
  const most = negative ? "9223372036854775808" : "9223372036854775807";
  return digits.length < most.length || (digits.length === most.length && digits <= most);
}

/** A place in a document, as `/items/0/price`. */
const pointer = (path) => path.map((name) => "/" + String(name).replace(/~/g, "~0").replace(/\//g, "~1")).join("");

/** Reads a text and makes of it what `make` makes of its parts. */
class Reader {
  at = 0;
  path = [];
  /** The places of the numbers that are not whole. */
  fractions = [];

  constructor(text, make) {
    this.text = text;
    this.make = make;
  }

  fail() { refuse(3, { at: pointer(this.path), offset: this.at }); }

  space() {
    for (;;) {
      const c = this.text.charCodeAt(this.at);
      if (c !== 32 && c !== 10 && c !== 13 && c !== 9) return c;
      this.at++;
    }
  }

  all(depth = DEPTH) {
    if (HALF.test(this.text)) this.fail();
    const value = this.value(depth);
    this.space();
    if (this.at < this.text.length) this.fail();
    return value;
  }

  value(depth) {
    switch (this.space()) {
      case 34: return this.make.string(this.string());
      case 91: return this.array(depth);
      case 123: return this.object(depth);
      case 110: return this.word("null");
      case 116: return this.word("true");
      case 102: return this.word("false");
      default: return this.number();
    }
  }

  word(word) {
    if (!this.text.startsWith(word, this.at)) this.fail();
    this.at += word.length;
    return this.make.word(word);
  }

  number() {
    NUMBER.lastIndex = this.at;
    const found = NUMBER.exec(this.text);
    if (!found || !Number.isFinite(+found[0])) this.fail();
    this.at += found[0].length;
    return this.make.number(found[0], !found[1] && !found[2] && isWhole(found[0]), this);
  }

  string() {
    const begun = this.at;
    let plain = true;
    for (;;) {
      const c = this.text.charCodeAt(++this.at);
      if (c === 34) break;
      if (!(c >= 32)) this.fail();
      if (c === 92) { plain = false; this.at++; }
    }
    this.at++;
    if (plain) return this.text.slice(begun + 1, this.at - 1);
    let found;
    try { found = JSON.parse(this.text.slice(begun, this.at)); } catch { this.fail(); }
    return HALF.test(found) ? this.fail() : found;
  }

  /** What stands between two brackets, parted by commas. */
  each(depth, end, read) {
    if (depth === 0) this.fail();
    this.at++;
    if (this.space() === end) { this.at++; return; }
    for (;;) {
      read();
      const c = this.space();
      this.at++;
      if (c === end) return;
      if (c !== 44) this.fail();
    }
  }

  array(depth) {
    const items = [];
    this.each(depth, 93, () => {
      this.path.push(items.length);
      items.push(this.value(depth - 1));
      this.path.pop();
    });
    return this.make.array(items);
  }

  object(depth) {
    const members = new Map();
    this.each(depth, 125, () => {
      if (this.space() !== 34) this.fail();
      const name = this.string();
      if (this.space() !== 58) this.fail();
      this.at++;
      this.path.push(name);
      members.set(name, this.value(depth - 1));
      this.path.pop();
    });
    return this.make.object(members);
  }
}

const quoted = (text) => JSON.stringify(text);
const objectText = (members) => {
  const names = [...members.keys()];
  if (names.length > 1) names.sort(byBytes);
  return "{" + names.map((name) => quoted(name) + ":" + members.get(name)).join(",") + "}";
};
const AS_TEXT = {
  string: quoted,
  word: (word) => word,
  // One that is not whole leaves a mark that no text of JSON has: a later member of its name may yet take its place.
  number: (text, whole, reader) => (whole ? text : `\0${reader.fractions.push(pointer(reader.path))}\0`),
  array: (items) => "[" + items.join(",") + "]",
  object: objectText,
};
const AS_VALUE = {
  string: (text) => text,
  word: (word) => ({ null: null, true: true, false: false })[word],
  number: (text) => /^-?[0-9]+$/.test(text) && !Number.isSafeInteger(+text) ? BigInt(text) : +text,
  array: (items) => items,
  object: (members) => Object.fromEntries(members),
};

const isLong = (text) => text.length > DOCUMENT_BYTES
  || (text.length > DOCUMENT_BYTES / 3 && encoder.encode(text).length > DOCUMENT_BYTES);
const withinBytes = (text) => (isLong(text) ? refuse(6) : text);

/** The compact text of the document that a text spells; else it is refused as 3, 4, 5 or 6. */
export function readDocument(text) {
  const reader = new Reader(text, AS_TEXT), compact = reader.all();
  if (compact[0] !== "{") refuse(4);
  const fraction = compact.split("\0", 2)[1];
  return fraction === undefined ? withinBytes(compact) : refuse(5, { at: reader.fractions[fraction - 1] });
}

/** A JSON text as a value, in which a whole number past 2^53 is a BigInt. */
export const parse = (text) => new Reader(text, AS_VALUE).all();

/** What a response tells, which has documents within. Who else answers, as a network does that wants a password first,
 *  is no server. */
function toldIn(text) {
  try { return new Reader(text, AS_VALUE).all(DEPTH + 8); } catch { throw new Unreachable("the response is no JSON"); }
}

function valueText(value, path) {
  if (typeof value?.toJSON === "function") value = value.toJSON();
  const deeper = (name, inner) => {
    path.push(name);
    const text = valueText(inner, path);
    path.pop();
    return text;
  };
  const bad = (number) => refuse(number, { at: pointer(path) });
  switch (typeof value) {
    case "string": return HALF.test(value) ? bad(3) : quoted(value);
    case "boolean": return String(value);
    case "bigint": return BigInt.asIntN(64, value) === value ? String(value) : bad(5);
    case "number": return Number.isSafeInteger(value) ? String(value + 0) : bad(5);
    case "object": break;
    default: return "null";
  }
  if (value === null) return "null";
  if (path.length >= DEPTH) refuse(3);
  if (Array.isArray(value)) return "[" + value.map((item, i) => deeper(i, item)).join(",") + "]";
  const members = new Map();
  for (const [name, member] of Object.entries(value)) {
    if (member === undefined || typeof member === "function" || typeof member === "symbol") continue;
    if (HALF.test(name)) bad(3);
    members.set(name, deeper(name, member));
  }
  return objectText(members);
}

/** The compact text of a document that is given as an object. A whole number past 2^53 has to be a BigInt. */
export function compact(document) {
  if (document === null || typeof document !== "object" || Array.isArray(document)) refuse(4);
  return withinBytes(valueText(document, []));
}

const documentText = (document) => (typeof document === "string" ? readDocument(document) : compact(document));

// ------------------------------------------------ contexts: entries { site, base, loose }, by rising site

const EMPTY_CONTEXT = [];

function unionLoose(base, a, b) {
  const out = [];
  for (let i = 0, j = 0; i < a.length || j < b.length;) {
    const next = j >= b.length || (i < a.length && a[i] <= b[j]) ? a[i++] : b[j++];
    if (next <= base || next === out[out.length - 1]) continue;
    if (next === base + 1 && out.length === 0) base = next;
    else out.push(next);
  }
  return { base, loose: out };
}

const unionEntry = (e, f) => ({ site: e.site, ...unionLoose(Math.max(e.base, f.base), e.loose, f.loose) });

/** The dots of both. */
export function union(a, b) {
  if (a.length === 0) return b;
  if (b.length === 0) return a;
  const out = [];
  for (let i = 0, j = 0; i < a.length || j < b.length;) {
    if (j >= b.length || (i < a.length && a[i].site < b[j].site)) out.push(a[i++]);
    else if (i >= a.length || b[j].site < a[i].site) out.push(b[j++]);
    else out.push(unionEntry(a[i++], b[j++]));
  }
  return out;
}

const entryOf = (context, site) => context.find((entry) => entry.site === site);

function within(list, wanted) {
  let low = 0, high = list.length;
  while (low < high) {
    const middle = (low + high) >>> 1;
    if (list[middle] < wanted) low = middle + 1;
    else high = middle;
  }
  return list[low] === wanted;
}

const holds = (context, dot) => {
  const entry = entryOf(context, dot.site);
  return entry !== undefined && (dot.counter <= entry.base || within(entry.loose, dot.counter));
};

const greatestCounter = (context, site) => {
  const entry = entryOf(context, site);
  return entry ? entry.loose[entry.loose.length - 1] ?? entry.base : 0;
};

const only = (dot) => [{ site: dot.site, ...unionLoose(0, [dot.counter], []) }];

/** A context's text, as of docs/FORMATS.md. */
export const contextText = (context) =>
  context.map(({ site, base, loose }) => [`${site}:${base}`, ...loose].join("+")).join(",") || "-";

const ENTRY = /^[1-9][0-9]*:(?:0|[1-9][0-9]*)(?:\+[1-9][0-9]*)*$/;

/** Whether the three are an entry of a context. */
function isEntry(site, base, loose, after) {
  let last = base + 1;
  for (const counter of loose) {
    if (counter <= last) return false;
    last = counter;
  }
  const greatest = loose[loose.length - 1] ?? base;
  return site > after && site <= SITE_MAX && greatest > 0 && greatest <= COUNTER_MAX;
}

/** The context that a text spells; else it is refused as 2. */
export function readContext(text) {
  if (text === "-") return EMPTY_CONTEXT;
  const out = [];
  let after = 0;
  for (const part of text.split(",")) {
    if (!ENTRY.test(part)) refuse(2);
    const [site, rest] = part.split(":"), [base, ...loose] = rest.split("+").map(Number);
    if (!isEntry(+site, base, loose, after)) refuse(2);
    after = +site;
    out.push({ site: after, base, loose });
  }
  return out;
}

/** What an author has seen: a context's text, or what was got or written; nothing is the empty context. */
const seenContext = (seen) => (seen === undefined || seen === null ? EMPTY_CONTEXT : readContext(seen.context ?? seen));

// -------------------------------- keys and states: { context, siblings }, siblings { site, counter, text }

const KEY = /^[\x21-\x7e]{1,128}$/;
const PREFIX = /^[\x21-\x7e]{0,128}$/;
const checkKey = (key) => (typeof key === "string" && KEY.test(key) ? key : refuse(1));
const checkPrefix = (prefix) => (typeof prefix === "string" && PREFIX.test(prefix) ? prefix : refuse(1));

const EMPTY = { context: EMPTY_CONTEXT, siblings: [] };
const byDot = (a, b) => a.site - b.site || a.counter - b.counter;
const dotText = (dot) => `${dot.site}:${dot.counter}`;
const DOT = /^[1-9][0-9]*:[1-9][0-9]*$/;

const readDot = (text) => {
  const [site, counter] = DOT.test(text) ? text.split(":").map(Number) : [0, 0];
  return site >= 1 && site <= SITE_MAX && counter <= COUNTER_MAX ? { site, counter } : refuse(33);
};

/** The state after a put of a site, by an author who has seen a context, and the put's dot. */
function putState(state, site, seen, text) {
  const all = union(state.context, seen), counter = greatestCounter(all, site) + 1;
  if (counter > COUNTER_MAX) refuse(8);
  const made = { site, counter, text }, stay = state.siblings.filter((one) => !holds(seen, one));
  return [{ context: union(all, only(made)), siblings: [...stay, made].sort(byDot) }, made];
}

const deleteState = (state, seen) => ({
  context: union(state.context, seen), siblings: state.siblings.filter((one) => !holds(seen, one)),
});

/** The join of two states; a dot with two documents is refused as 11. */
function joinStates(a, b) {
  const out = [];
  for (let i = 0, j = 0; i < a.siblings.length || j < b.siblings.length;) {
    const x = a.siblings[i], y = b.siblings[j], order = !x ? 1 : !y ? -1 : byDot(x, y);
    if (order === 0) {
      if (x.text !== y.text) refuse(11);
      out.push(x);
    } else if (order < 0 ? !holds(b.context, x) : !holds(a.context, y)) out.push(order < 0 ? x : y);
    if (order <= 0) i++;
    if (order >= 0) j++;
  }
  return { context: union(a.context, b.context), siblings: out };
}

const sameContext = (a, b) => a === b || contextText(a) === contextText(b);
const sameState = (a, b) => a === b || (a.siblings.length === b.siblings.length && sameContext(a.context, b.context)
  && a.siblings.every((one, i) => byDot(one, b.siblings[i]) === 0 && one.text === b.siblings[i].text));

const u64 = (view, at, n) => { view.setUint32(at, Math.floor(n / 2 ** 32)); view.setUint32(at + 4, n >>> 0); };

/** The bytes of a state, after so many that are left free. */
function spell(state, free = 0) {
  const texts = state.siblings.map((one) => encoder.encode(one.text));
  const seen = state.context.reduce((size, entry) => size + 16 + 8 * entry.loose.length, 6);
  const out = new Uint8Array(texts.reduce((size, text) => size + 16 + text.length, free + seen));
  const view = new DataView(out.buffer);
  let at = free + 4;
  view.setUint32(free, state.context.length);
  for (const { site, base, loose } of state.context) {
    view.setUint32(at, site); u64(view, at + 4, base); view.setUint32(at + 12, loose.length);
    at += 16;
    for (const counter of loose) { u64(view, at, counter); at += 8; }
  }
  view.setUint16(at, state.siblings.length);
  at += 2;
  state.siblings.forEach((one, i) => {
    view.setUint32(at, one.site); u64(view, at + 4, one.counter); view.setUint32(at + 12, texts[i].length);
    out.set(texts[i], at + 16);
    at += 16 + texts[i].length;
  });
  return out;
}

/** The state that bytes of this module spell. */
function unspell(bytes) {
  const view = new DataView(bytes.buffer, bytes.byteOffset, bytes.length), context = [], siblings = [];
  const wide = (at) => view.getUint32(at) * 2 ** 32 + view.getUint32(at + 4);
  let at = 4;
  for (let n = view.getUint32(0); n > 0; n--) {
    const entry = { site: view.getUint32(at), base: wide(at + 4), loose: [] };
    let loose = view.getUint32(at + 12);
    for (at += 16; loose > 0; loose--, at += 8) entry.loose.push(wide(at));
    context.push(entry);
  }
  let count = view.getUint16(at);
  for (at += 2; count > 0; count--) {
    const length = view.getUint32(at + 12);
    const text = decoder.decode(bytes.subarray(at + 16, at + 16 + length));
    siblings.push({ site: view.getUint32(at), counter: wide(at + 4), text });
    at += 16 + length;
  }
  return { context, siblings };
}

const keySpelled = (key) => {
  const out = new Uint8Array(1 + key.length);
  out[0] = key.length;
  for (let i = 0; i < key.length; i++) out[1 + i] = key.charCodeAt(i);
  return out;
};

/** A key's digest: SHA-256 of the spelled key and the spelled state. A state that is too long is refused as 9. */
function digestOf(key, state) {
  const bytes = spell(state, 1 + key.length);
  if (bytes.length - 1 - key.length > STATE_BYTES) refuse(9);
  bytes.set(keySpelled(key));
  return hex(sha256(bytes));
}

/** What a reader gets of a key: its context, and each sibling's dot, text and document. */
export class State {
  constructor(key, state) {
    this.key = key;
    this.context = contextText(state.context);
    this.siblings = state.siblings.map((one) => new Sibling(dotText(one), one.text));
  }

  get documents() { return this.siblings.map((one) => one.document); }
}

class Sibling {
  #document;

  constructor(dot, text) {
    this.dot = dot;
    this.text = text;
  }

  /** The document as a value; a whole number past 2^53 is a BigInt. */
  get document() { return (this.#document ??= parse(this.text)); }
}

/** The state of an object of HTTP or a `State`; refused as 2, 3 to 6, 33 where a dot does not rise or is not seen. */
function stateOf(object) {
  const context = readContext(object.context), siblings = [];
  for (const one of object.siblings) {
    const dot = readDot(one.dot), before = siblings[siblings.length - 1];
    if ((before && byDot(before, dot) >= 0) || !holds(context, dot)) refuse(33);
    siblings.push({ ...dot, text: documentText(one.text ?? one.document) });
  }
  return { context, siblings };
}

/** The bytes of a state, as a file of records has them, and its key's digest. */
export const spelled = (state) => spell(stateOf(state));
export const digest = (state) => digestOf(checkKey(state.key), stateOf(state));

/** Whether a document may be nested so deep that a line around it would be too deep. */
const isDeep = (text) => (text.match(/[[{]/g)?.length ?? 0) > DEPTH - 8;

/** A line of `POST /push`. The texts go in as they are. */
const pushLine = (key, state) => {
  const inside = (text) => (isDeep(text) ? `"text":${quoted(text)}` : `"document":${text}`);
  const siblings = state.siblings.map((one) => `{"dot":"${dotText(one)}",${inside(one.text)}}`);
  return `{"key":${quoted(key)},"context":"${contextText(state.context)}","siblings":[${siblings}]}`;
};

// ---------------------------------------------------------------- the hash tree: a path is 0 to 3 digits

const DIGITS = [..."0123456789abcdef"];
const ZERO = "0".repeat(64);
const places = new Map();

/** The place of a key: the first three digits of its SHA-256. */
export function placeOf(key) {
  let found = places.get(key);
  if (found === undefined) {
    if (places.size > 100000) places.clear();
    places.set(key, found = hex(sha256(encoder.encode(key)).subarray(0, 2)).slice(0, 3));
  }
  return found;
}

const unhex = (text, out, at) => {
  for (let i = 0; i < text.length; i += 2) out[at + i / 2] = parseInt(text.slice(i, i + 2), 16);
};

/** The tree of the keys' digests. A node's digest is made when it is asked, and kept until a key under it changes. */
class Tree {
  buckets = new Map();
  /** The digest of each node with a key under it, or nothing where it has to be made. */
  made = new Map();

  set(key, digest) {
    const path = placeOf(key);
    if (!this.buckets.has(path)) this.buckets.set(path, new Map());
    this.buckets.get(path).set(key, digest);
    for (let n = 0; n <= 3; n++) this.made.set(path.slice(0, n), undefined);
  }

  /** The digests under a bucket, by rising key. */
  bucket(path) { return [...this.buckets.get(path) ?? []].sort(byKey); }

  children(path) { return DIGITS.map((digit) => this.node(path + digit)); }

  node(path) {
    if (!this.made.has(path)) return ZERO;
    let found = this.made.get(path);
    if (found === undefined) {
      const parts = path.length === 3 ? this.bucket(path).map((entry) => entry[1]) : this.children(path);
      const bytes = new Uint8Array(32 * parts.length);
      parts.forEach((part, i) => { if (part !== ZERO) unhex(part, bytes, 32 * i); });
      this.made.set(path, found = hex(sha256(bytes)));
    }
    return found;
  }
}

// ---------------------------------------------------------------- stores
// A store keeps for each key its state and a row { digest, seq, siblings }, where seq tells the changes of the store in
// their order; and a clock { site, seq, keys }. `update` is one transaction: it reads the states of some keys and the
// clock, and puts what `make` gives.

/** Where the keys begin that begin with a prefix and stand behind a key; with `open` that one is left out. */
const begins = (prefix, after = "") => (after >= prefix ? { from: after, open: true } : { from: prefix, open: false });
const byKey = (a, b) => (a[0] < b[0] ? -1 : 1);

/** A store that ends with the program. */
export class Memory {
  #states = new Map();
  #rows = new Map();
  #log = [];
  #clock = { site: 0, seq: 0, keys: 0 };
  #notes = new Map();
  #sorted;

  async clock() { return { ...this.#clock }; }

  async states(keys) { return keys.map((key) => this.#states.get(key)); }

  async update(keys, make) {
    const clock = { ...this.#clock }, made = make(keys.map((key) => this.#states.get(key)), clock);
    for (const [key, state, row] of made) {
      if (!this.#rows.has(key)) this.#sorted = undefined;
      this.#states.set(key, state);
      this.#rows.set(key, row);
      this.#log.push(row.seq, key);
    }
    this.#clock = clock;
    if (this.#log.length > 1000 + 4 * this.#rows.size) {
      this.#log = this.#log.filter((_, i, all) => this.#rows.get(all[i | 1]).seq === all[i & ~1]);
    }
  }

  /** The rows that came after seq, in their order. */
  async since(seq) {
    let low = 0, high = this.#log.length / 2;
    while (low < high) {
      const middle = (low + high) >>> 1;
      if (this.#log[2 * middle] <= seq) low = middle + 1;
      else high = middle;
    }
    const out = [];
    for (let i = 2 * low; i < this.#log.length; i += 2) {
      const row = this.#rows.get(this.#log[i + 1]);
      if (row.seq === this.#log[i]) out.push([this.#log[i + 1], row]);
    }
    return out;
  }

  /** The rows of the keys that begin with a prefix, after one key and up to another. */
  async rows(prefix, after, to) {
    this.#sorted ??= [...this.#rows.keys()].sort();
    const { from, open } = begins(prefix, after), out = [];
    for (const key of this.#sorted) {
      if (key < from || (open && key === from)) continue;
      if (!key.startsWith(prefix) || (to !== undefined && key > to)) break;
      out.push([key, this.#rows.get(key)]);
    }
    return out;
  }

  async conflicts() { return [...this.#rows].filter(([, row]) => row.siblings > 1).sort(byKey); }

  async note(name, make) {
    if (make) this.#notes.set(name, make(this.#notes.get(name)));
    return this.#notes.get(name);
  }

  listen() {}

  announce() {}

  close() {}
}

const asked = (request) => new Promise((done, fail) => {
  request.onsuccess = () => done(request.result);
  request.onerror = () => fail(request.error);
});

/** A store of a browser. Two tabs of one name share it: each write reads and writes in one transaction. */
export class Indexed {
  #database;
  #channel;

  static async open(name) {
    const self = new Indexed(), request = indexedDB.open(`mvd ${name}`, 1);
    request.onupgradeneeded = () => {
      for (const store of ["states", "notes"]) request.result.createObjectStore(store);
      const rows = request.result.createObjectStore("rows");
      rows.createIndex("seq", "seq");
      rows.createIndex("conflict", "conflict");
    };
    self.#database = await asked(request);
    if (globalThis.BroadcastChannel) self.#channel = new BroadcastChannel(`mvd ${name}`);
    return self;
  }

  #read(store) { return this.#database.transaction(store).objectStore(store); }

  async clock() { return (await asked(this.#read("notes").get("clock"))) ?? { site: 0, seq: 0, keys: 0 }; }

  async states(keys) {
    const store = this.#read("states"), found = await Promise.all(keys.map((key) => asked(store.get(key))));
    return found.map((bytes) => bytes && unspell(bytes));
  }

  /** One transaction: what `requests` asks of its stores is read, then `make` is called with it and writes. */
  #change(stores, requests, make) {
    return new Promise((done, fail) => {
      const work = this.#database.transaction(stores, "readwrite", { durability: "strict" });
      let made, fault, waits = 0;
      const reads = requests((store, key) => {
        const request = work.objectStore(store).get(key);
        waits++;
        request.onsuccess = () => {
          if (--waits > 0) return;
          try { made = make(reads.map((one) => one.result), work); } catch (error) { fault = error; work.abort(); }
        };
        return request;
      });
      work.oncomplete = () => done(made);
      work.onabort = () => fail(fault ?? work.error);
    });
  }

  update(keys, make) {
    const reads = (get) => [get("notes", "clock"), ...keys.map((key) => get("states", key))];
    return this.#change(["states", "rows", "notes"], reads, ([old, ...states], work) => {
      const clock = old ?? { site: 0, seq: 0, keys: 0 };
      for (const [key, state, row] of make(states.map((bytes) => bytes && unspell(bytes)), clock)) {
        work.objectStore("states").put(spell(state), key);
        work.objectStore("rows").put(row.siblings > 1 ? { ...row, conflict: 1 } : row, key);
      }
      work.objectStore("notes").put(clock, "clock");
    });
  }

  async #pairs(source, range) {
    const [keys, rows] = await Promise.all([asked(source.getAllKeys(range)), asked(source.getAll(range))]);
    return keys.map((key, i) => [key, rows[i]]);
  }

  since(seq) { return this.#pairs(this.#read("rows").index("seq"), IDBKeyRange.lowerBound(seq, true)); }

  rows(prefix, after, to = prefix + "\x7f") {
    const { from, open } = begins(prefix, after);
    if (from > to || (open && from === to)) return Promise.resolve([]);
    return this.#pairs(this.#read("rows"), IDBKeyRange.bound(from, to, open));
  }

  conflicts() { return this.#pairs(this.#read("rows").index("conflict")); }

  note(name, make) {
    if (!make) return asked(this.#read("notes").get(name));
    return this.#change(["notes"], (get) => [get("notes", name)], ([old], work) => {
      const made = make(old);
      work.objectStore("notes").put(made, name);
      return made;
    });
  }

  listen(tell) { if (this.#channel) this.#channel.onmessage = (event) => tell(event.data); }

  announce(keys) { this.#channel?.postMessage(keys); }

  close() {
    this.#channel?.close();
    this.#database.close();
  }
}

// ---------------------------------------------------------------- the site

const drawSite = () => 65536 + Math.floor(Math.random() * (SITE_MAX - 65535));
const drawMark = () => hex(Uint8Array.from({ length: 8 }, () => Math.random() * 256));

/** Writes what `merge` makes of a key's documents in place of them, where there are several. Where that is nothing, the
 *  key is deleted. */
async function resolveAt(where, key, merge) {
  const state = await where.get(key);
  if (state.siblings.length < 2) return undefined;
  const merged = merge(state.documents);
  return merged ? where.put(key, merged, state) : where.delete(key, state);
}

/** A site of its own: what it writes stands in its store, and meets servers by `sync`. */
export class Site {
  #store;
  #maxKeys;
  #tree = new Tree();
  #treeSeq = 0;
  #listeners = new Set();

  /** Opens the store of a name: IndexedDB where there is one, else memory. `site` gives a new store its number. */
  static async open(name = "mvd", { site, store, maxKeys = MOST_KEYS } = {}) {
    const self = new this();
    self.#store = store ?? (globalThis.indexedDB ? await Indexed.open(name) : new Memory());
    self.#maxKeys = maxKeys;
    self.number = (await self.#store.clock()).site;
    if (site !== undefined) await self.#own(site);
    self.#store.listen(async (keys) => {
      self.number ||= (await self.#store.clock()).site;
      self.#tell(keys);
    });
    return self;
  }

  /** The store gets a number, where it has none. */
  async #own(site, keep = false) {
    if (!Number.isInteger(site) || site < 1 || site > SITE_MAX) refuse(16);
    await this.#store.update([], (_, clock) => {
      if (clock.site && clock.site !== site && !keep) refuse(16);
      this.number = clock.site ||= site;
      return [];
    });
    this.#store.announce([]);
  }

  /** Gives the store a number that no other has claimed at this server, and gives it. A store that has one keeps it. */
  async claim(url, { token, prefix = "", fetch, draw = drawSite } = {}) {
    const client = asClient(url, { token, fetch }).pinned();
    this.number = (await this.#store.clock()).site;
    while (!this.number) {
      const drawn = draw(), key = `${prefix}site/${drawn}`, { dot } = await client.put(key, { claim: drawMark() });
      const dots = (await client.get(key)).siblings.map((one) => readDot(one.dot)).sort(byDot);
      if (dots.length && dotText(dots[0]) === dot) await this.#own(drawn, true);
    }
    return this.number;
  }

  close() { this.#store.close(); }

  // ---- reading

  async get(key) { return new State(checkKey(key), (await this.#store.states([key]))[0] ?? EMPTY); }

  /** The keys held, rising, each with the number of its siblings; of a deleted key it is 0. */
  async keys({ prefix = "", live = false } = {}) {
    const rows = await this.#store.rows(checkPrefix(prefix));
    return rows.map(([key, row]) => ({ key, siblings: row.siblings })).filter((one) => !live || one.siblings > 0);
  }

  /** The keys with more than one sibling, rising. */
  async conflicts() { return (await this.#store.conflicts()).map(([key, row]) => ({ key, siblings: row.siblings })); }

  /** All states of the keys that begin with a prefix, but of those that are deleted. */
  async all(prefix = "") {
    const keys = (await this.keys({ prefix, live: true })).map((one) => one.key);
    const states = await this.#store.states(keys);
    return keys.map((key, i) => new State(key, states[i]));
  }

  async root() { return (await this.tree()).node(""); }

  /** The digest of a node of the hash tree; a path that is none is refused as 14. */
  async node(path) { return /^[0-9a-f]{0,3}$/.test(path) ? (await this.tree()).node(path) : refuse(14); }

  /** The hash tree of what the store holds now, whichever tab wrote it. */
  async tree() {
    for (const [key, row] of await this.#store.since(this.#treeSeq)) {
      if (row.seq <= this.#treeSeq) continue;
      this.#tree.set(key, row.digest);
      this.#treeSeq = row.seq;
    }
    return this.#tree;
  }

  // ---- writing

  /** Writes a document, an object or its text, in place of what its author has seen: what was got or written, or its
   *  context. Its dot is minted in the transaction that stores it. */
  async put(key, document, seen) {
    checkKey(key);
    const context = seenContext(seen), text = documentText(document);
    let made;
    const put = (state, clock) => {
      if (!clock.site) throw new Error("this site has no number: open it with one, or claim one");
      const [next, dot] = putState(state, clock.site, context, text);
      made = dot;
      return next;
    };
    await this.#one(key, put);
    return { key, dot: dotText(made), context: contextText(union(context, only(made))) };
  }

  /** Deletes the siblings that its author has seen, and no others. */
  async delete(key, seen) {
    checkKey(key);
    const context = seenContext(seen);
    await this.#one(key, (state) => deleteState(state, context));
  }

  /** Joins a state into the site's own, as a session does. */
  async push(key, state) {
    checkKey(key);
    const given = stateOf(state);
    digestOf(key, given);
    await this.#one(key, (own) => joinStates(own, given));
  }

  resolve(key, merge) { return resolveAt(this, key, merge); }

  async #one(key, step) {
    const [fault] = await this.#change([key], (state, clock) => step(state, clock));
    if (fault) throw fault;
  }

  /** One transaction: each key's state becomes what `step` makes of it. Gives for each the refusal, or nothing. */
  async #change(keys, step) {
    const faults = [], changed = [];
    await this.#store.update(keys, (states, clock) => {
      const rows = [];
      keys.forEach((key, i) => {
        const old = states[i] ?? EMPTY;
        try {
          const made = step(old, clock, i);
          if (sameState(old, made)) return;
          const digest = digestOf(key, made);
          if (old.context.length === 0) {
            if (clock.keys >= this.#maxKeys) refuse(10);
            clock.keys++;
          }
          changed.push(key);
          rows.push([key, made, { digest, seq: ++clock.seq, siblings: made.siblings.length }]);
        } catch (error) {
          if (!(error instanceof Refused)) throw error;
          faults[i] = error;
        }
      });
      return rows;
    });
    if (changed.length) {
      this.#store.announce(changed);
      this.#tell(changed);
    }
    return faults;
  }

  /** `listener` is told the keys that changed, whether here, in another tab or by a session. Gives what ends that. */
  subscribe(listener) {
    this.#listeners.add(listener);
    return () => this.#listeners.delete(listener);
  }

  #tell(keys) { for (const listener of this.#listeners) listener(keys); }

  // ---- sessions

  /** Brings this site and a server to the join of what they hold, of the keys that begin with a prefix. Cut anywhere,
   *  it is run again. */
  async sync(url, { token, prefix = "", fetch, whole = false, wait = 0, interrupt, signal } = {}) {
    // One session is with one server: what it keeps of it would not be true of two.
    const client = asClient(url, { token, fetch });
    for (let turn = 1; ; turn++) {
      try {
        return await new Session(this, client.pinned(), checkPrefix(prefix), signal).run(whole, wait, interrupt);
      } catch (fault) {
        if (!(fault instanceof Unreachable) || signal?.aborted || !client.pass(turn)) throw fault;
      }
    }
  }

  /** Syncs whenever something changed here or there, until `signal` ends it. After a fault it waits, up to a minute. */
  async follow(url, { signal, wait = 25, onsync, onfault, ...options } = {}) {
    const client = asClient(url, options);
    let pause = 1, ends, woken, isStirred = true;
    const rest = (seconds) => new Promise((done) => {
      const clock = setTimeout(done, 1000 * seconds);
      woken = () => { clearTimeout(clock); done(); };
    });
    const stir = () => { isStirred = true; ends?.abort(); }, wake = () => { ends?.abort(); woken?.(); };
    const quiet = this.subscribe(stir);
    signal?.addEventListener("abort", wake);
    globalThis.addEventListener?.("online", wake);
    try {
      while (!signal?.aborted) {
        ends = new AbortController();
        // What was written while the session before went on, or before there was one, is not left waiting for the server.
        const seconds = isStirred ? 0 : wait;
        isStirred = false;
        try {
          const report = await this.sync(client, { ...options, wait: seconds, interrupt: ends.signal, signal });
          pause = 1;
          onsync?.(report);
          if (report.refused.length || report.busy) await rest(1);
        } catch (fault) {
          if (signal?.aborted) break;
          isStirred = true;
          onfault?.(fault);
          await rest(pause);
          pause = Math.min(60, 2 * pause);
        }
      }
    } finally {
      quiet();
      signal?.removeEventListener("abort", wake);
      globalThis.removeEventListener?.("online", wake);
    }
  }

  // What a session asks of its own side: it knows the store by these alone.

  /** Joins states that a server told. Gives for each its refusal; whether the site held another one (`other`), and now
   *  holds `more`, or else the digest of both; and whether the server had seen dots of this site that the store has
   *  not (`older`). */
  async take(pairs) {
    const out = [], own = (context, site) => context.filter((entry) => entry.site === site);
    const faults = await this.#change(pairs.map(([key]) => key), (state, { site }, i) => {
      const [key, told] = pairs[i], joined = joinStates(state, told), more = !sameState(joined, told);
      const older = !sameContext(own(joined.context, site), own(state.context, site));
      out[i] = { key, other: !sameState(state, told), more, older, digest: more ? undefined : digestOf(key, told) };
      return joined;
    });
    return pairs.map(([key], i) => ({ ...(out[i] ?? { key, other: true }), fault: faults[i] }));
  }

  /** The states of some keys, as they are pushed. */
  async give(keys) { return (await this.#store.states(keys)).map((state) => state ?? EMPTY); }

  clock() { return this.#store.clock(); }

  since(seq) { return this.#store.since(seq); }

  rows(prefix, after, to) { return this.#store.rows(prefix, after, to); }

  /** What was met last: with this server, or else what is true of each server that had its root. */
  async link(prefix, server) {
    const links = (await this.#store.note("links"))?.[prefix];
    return links?.servers[server] ?? links?.anywhere;
  }

  async relink(prefix, server, link, isTrueAnywhere) {
    await this.#store.note("links", (all = {}) => {
      const { servers, anywhere } = all[prefix] ?? {}, now = isTrueAnywhere && link ? link : anywhere;
      return { ...all, [prefix]: { servers: { ...servers, [server]: link }, anywhere: now } };
    });
  }
}

// ---------------------------------------------------------------- sessions

const WINDOW_LINES = 1000;
const WINDOW_BYTES = 1000000;
const WINDOW_PATHS = 64;
const MOST_NOTED = 500;

/** Things that have a `line` each, in lists that one request takes: by number and by bytes, but for a single line. */
async function* windows(things) {
  let window = [], bytes = 0;
  for await (const one of things) {
    const size = encoder.encode(one.line).length + 1;
    if (window.length === WINDOW_LINES || (window.length && bytes + size > WINDOW_BYTES)) {
      yield window;
      [window, bytes] = [[], 0];
    }
    window.push(one);
    bytes += size;
  }
  if (window.length) yield window;
}

const byPlace = (a, b) => {
  const x = placeOf(a), y = placeOf(b);
  return x < y ? -1 : x > y ? 1 : a < b ? -1 : a > b ? 1 : 0;
};
const cut = (list, most) =>
  Array.from({ length: Math.ceil(list.length / most) }, (_, i) => list.slice(i * most, (i + 1) * most));

/**
 * One meeting of a site and a server. What was met is kept as a link { root, seq, sent, left }: the site holds all that
 * the server held at that root, but for the keys of `left`, which one of the two refused; and all changes of the store
 * up to seq are in that root, but for `left` and for `sent`, which were pushed after the root was told. So a link is
 * true at each server that had its root. One made by digests is true at its own server alone: a key that was equal
 * there may have come to it after the root.
 */
class Session {
  #counted = new Set();
  #left = new Map();
  #same = new Map();
  #sent = new Set();
  #older = new Set();

  constructor(site, far, prefix, signal) {
    Object.assign(this, { site, far, prefix, signal });
  }

  async run(whole, wait, interrupt) {
    const link = whole ? undefined : await this.site.link(this.prefix, this.far.name);
    const told = link && await this.#byChanges(link, wait, interrupt);
    if (!told || told.resync) await this.#compare(told?.root);
    const refused = [...this.#left.values()].sort((a, b) => byPlace(a.key, b.key));
    return { keys: this.#counted.size, refused, older: this.#older.size, ...(told?.busy ? { busy: true } : {}) };
  }

  // ---- by what changed since the root that was met last

  async #byChanges(link, wait, interrupt) {
    let root = link.root, told;
    for (;;) {
      told = await this.#changes(root, wait, interrupt);
      if (told.resync) return told;
      const listed = new Set(told.items.map((item) => item.key)), isLast = !told.more;
      const again = isLast ? link.left.filter((key) => !listed.has(key)) : [];
      await this.#pull([...told.items, ...again.map((key) => ({ key }))]);
      root = told.root;
      if (isLast) break;
      [wait, interrupt] = [0, undefined];
      await this.#note({ ...link, root, left: [...link.left, ...this.#left.keys()] }, false);
    }
    const { seq } = await this.site.clock(), changed = await this.#changedSince(link.seq);
    const keys = new Set([...changed.keys(), ...link.sent, ...link.left]);
    await this.#push([...keys].filter((key) => !this.#isSame(key, changed.get(key))).sort(byPlace));
    await this.#met(root, seq, !told.isCut);
    return told;
  }

  /** The keys of the store that changed, with their digests. */
  async #changedSince(seq) {
    const rows = await this.site.since(seq);
    return new Map(rows.filter(([key]) => key.startsWith(this.prefix)).map(([key, row]) => [key, row.digest]));
  }

  /** Whether the server told just what the site holds, whose digest is given where the key changed. */
  #isSame(key, digest = this.#same.get(key)) { return this.#same.has(key) && this.#same.get(key) === digest; }

  async #changes(since, wait, interrupt) {
    try {
      const given = { since, prefix: this.prefix, wait, states: true, signal: interrupt ?? this.signal };
      return await this.far.changes(given);
    } catch (fault) {
      if (!interrupt?.aborted || this.signal?.aborted) throw fault;
      return { root: since, resync: false, items: [], more: false, isCut: true };
    }
  }

  // ---- by digests

  async #compare(root) {
    const { seq, keys } = await this.site.clock();
    root ??= (await this.far.changes({ prefix: this.prefix, signal: this.signal })).root;
    const isEqual = root === await this.site.root();
    if (isEqual) await this.#met(root, seq, true);
    else {
      if (this.prefix !== "") await this.#byDigests();
      else if (keys <= WINDOW_LINES) await this.#byDigests(true) || await this.#byTree();
      else await this.#byTree(keys) || await this.#byDigests();
      // What was pulled meanwhile is there too; what else was written meanwhile is looked at the next time.
      const now = await this.site.clock();
      for (const [key, digest] of await this.#changedSince(seq)) if (!this.#isSame(key, digest)) this.#sent.add(key);
      await this.#met(root, now.seq, false);
    }
  }

  /** Page by page. A key whose digest is not told is got. Gives false where none is told, and the tree is better. */
  async #byDigests(mayStop = false) {
    for (let after; ;) {
      const page = await this.far.digests(this.prefix, after, this.signal);
      const own = new Map(await this.site.rows(this.prefix, after, page.next));
      if (mayStop && own.size > WINDOW_PATHS && page.keys.every(([, digest]) => digest === undefined)) return false;
      await this.#settle(new Map(page.keys), own);
      if (page.next === undefined) return true;
      after = page.next;
    }
  }

  /** Level by level; gives false where so much differs that a list of all digests takes fewer requests. */
  async #byTree(keys = Infinity) {
    let paths = [...DIGITS];
    for (let level = 1; level < 3; level++) {
      const differ = [], tree = await this.site.tree();
      for (const some of cut(paths, WINDOW_PATHS)) {
        const nodes = await this.far.nodes(some, this.signal);
        some.forEach((path, i) => {
          const own = tree.children(path);
          differ.push(...DIGITS.filter((_, d) => own[d] !== nodes[i][d]).map((digit) => path + digit));
        });
      }
      paths = differ;
      if (Math.ceil(paths.length / WINDOW_PATHS) > Math.ceil(keys / WINDOW_LINES)) return false;
    }
    for (const some of cut(paths, WINDOW_PATHS)) {
      const theirs = new Map((await this.far.buckets(some, this.signal)).flat()), tree = await this.site.tree();
      const own = some.flatMap((path) => tree.bucket(path));
      await this.#settle(theirs, new Map(own.map(([key, digest]) => [key, { digest }])));
    }
    return true;
  }

  async #settle(theirs, own) {
    const keys = new Set([...theirs.keys(), ...own.keys()]);
    const isEqual = (key) => theirs.has(key) && own.has(key) && theirs.get(key) === own.get(key).digest;
    for (const some of cut([...keys].filter((key) => !isEqual(key)).sort(byPlace), WINDOW_LINES)) {
      await this.#pull(some.filter((key) => theirs.has(key)).map((key) => ({ key })));
      await this.#push(some.filter((key) => !this.#same.has(key)));
    }
  }

  // ---- states

  /** Joins what the server tells of some keys, by rising place; it is asked for what is not told yet. */
  async #pull(items) {
    for (let window of cut([...items].sort((a, b) => byPlace(a.key, b.key)), WINDOW_LINES)) {
      while (window.length) {
        const keys = window.filter((item) => !item.state && !item.fault).map((item) => item.key);
        const asked = keys.length ? await this.far.states(keys, this.signal) : [];
        const told = new Map(asked.map((item) => [item.key, item]));
        const known = window.map((item) => told.get(item.key) ?? item), end = known.findIndex((item) => item.later);
        if (end === 0) throw new Unreachable("the server tells no state");
        await this.#take(end < 0 ? known : known.slice(0, end));
        window = end < 0 ? [] : known.slice(end);
      }
    }
  }

  async #take(items) {
    for (const { key, fault } of items) if (fault) this.#leave(key, "there", fault);
    const good = items.filter((item) => item.state);
    if (!good.length) return;
    const taken = await this.site.take(good.map(({ key, state }) => [key, state]));
    for (const { key, fault, other, more, older, digest } of taken) {
      if (fault) {
        this.#leave(key, "here", fault);
        continue;
      }
      this.#left.delete(key);
      if (other) this.#counted.add(key);
      if (older) this.#older.add(key);
      if (more) this.#same.delete(key);
      else this.#same.set(key, digest);
    }
  }

  async #push(keys) {
    for await (const window of windows(this.#lines(keys.filter((key) => !this.#left.has(key))))) {
      const faults = await this.#deliver(window);
      window.forEach(({ key }, i) => {
        if (faults[i]) return this.#leave(key, "there", faults[i]);
        this.#counted.add(key);
        this.#sent.add(key);
      });
    }
  }

  async *#lines(keys) {
    for (const some of cut(keys, 100)) {
      const states = await this.site.give(some);
      yield* some.map((key, i) => ({ key, state: states[i], line: pushLine(key, states[i]) }));
    }
  }

  async #deliver(window) {
    try {
      return await this.far.deliver(window, this.signal);
    } catch (fault) {
      // A state that is longer than a body may be is alone in its window.
      if (fault.status === 413 && window.length === 1) return [fault];
      throw fault;
    }
  }

  #leave(key, side, fault) {
    this.#counted.delete(key);
    this.#left.set(key, { key, side, number: fault.number, name: fault.refusal });
  }

  // ---- what is kept for the next time

  #met(root, seq, isTrueAnywhere) {
    return this.#note({ root, seq, sent: [...this.#sent], left: [...this.#left.keys()] }, isTrueAnywhere);
  }

  #note(link, isTrueAnywhere) {
    const many = link.sent.length > MOST_NOTED || link.left.length > MOST_NOTED;
    const kept = many ? undefined : { ...link, left: [...new Set(link.left)] };
    return this.site.relink(this.prefix, this.far.name, kept, isTrueAnywhere);
  }
}

// ---------------------------------------------------------------- the client

const asClient = (url, options) => (typeof url === "string" || Array.isArray(url) ? new Client(url, options) : url);
const query = (path, given) => {
  const words = Object.entries(given).filter(([, value]) => value !== undefined && value !== "" && value !== false);
  const parts = words.map(([name, value]) => `${name}=${value === true ? 1 : encodeURIComponent(value)}`);
  return parts.length ? `${path}?${parts.join("&")}` : path;
};
/** Keys that a browser takes out of a path. */
const DOTS = /^\.\.?$/;
/** A context that is longer stands in a body, not in a field. */
const LONG_CONTEXT = 4000;
const keyPath = (key) => `/keys/${encodeURIComponent(checkKey(key))}`;
const linesOf = (text) => text.split("\n").filter((line) => line !== "").map(toldIn);
const faultOf = ({ refused, name, at }, status) =>
  new Refused(refused, name, { status, ...(at === undefined ? {} : { at }) });
/** A line of `POST /keys`. */
const writeLine = (key, context, text) =>
  `{"key":${quoted(key)},"context":"${contextText(context)}"${text === undefined ? "" : `,"document":${text}`}}`;
const withDot = (context, dot) => contextText(union(context, only(readDot(dot))));

async function* writeLines(writes) {
  for await (const { key, document, seen } of writes) {
    const text = document === undefined ? undefined : documentText(document);
    yield { line: writeLine(checkKey(key), seenContext(seen), text) };
  }
}

/** A server's keys, asked over HTTP, with no copy. Where one of several servers does not answer it asks the next. */
export class Client {
  #servers;
  #options;
  #fetch;
  #at = 0;
  /** How many requests were made. */
  requests = 0;

  constructor(servers, { token, fetch = (...words) => globalThis.fetch(...words), timeout = 30 } = {}) {
    this.#servers = [servers].flat().map((url) => url.replace(/\/+$/, ""));
    this.#options = { token, timeout };
    this.#fetch = fetch;
  }

  /** The server that is asked now. */
  get name() { return this.#servers[this.#at]; }

  // ---- requests

  async #once(method, path, { body, context, wait = 0, signal }) {
    const { token, timeout } = this.#options, ends = new AbortController(), stop = () => ends.abort();
    const clock = setTimeout(stop, 1000 * (timeout + wait)), headers = {};
    if (token) headers.Authorization = `Bearer ${token}`;
    if (context && context !== "-") headers["Mvd-Context"] = context;
    if (body !== undefined) headers["Content-Type"] = "application/json";
    if (signal?.aborted) stop();
    signal?.addEventListener("abort", stop);
    this.requests++;
    try {
      // (a request that passes by the browser's cache is always asked for before, where the page is of another origin)
      const given = { method, headers, body, signal: ends.signal, cache: method === "GET" ? "no-store" : "default" };
      const response = await this.#fetch(this.name + path, given);
      return { status: response.status, text: await response.text() };
    } catch (error) {
      throw signal?.aborted ? error : new Unreachable(`${this.name} does not answer`, error);
    } finally {
      clearTimeout(clock);
      signal?.removeEventListener("abort", stop);
    }
  }

  /** A response's text. `safe`: it may be asked again, at the next server, or once more at the only one, whose
   *  connection may have ended. */
  async #ask(method, path, { safe = true, ...request } = {}) {
    const most = Math.max(2, this.#servers.length);
    for (let turn = 1; ; turn++) {
      let fault;
      try {
        const { status, text } = await this.#once(method, path, request);
        if (status < 400 || (status === 404 && method === "GET" && text.includes('"siblings"'))) return text;
        fault = this.#fault(status, text);
      } catch (error) {
        fault = error;
      }
      if (!(fault instanceof Unreachable) && fault.status !== 503) throw fault;
      this.#at = (this.#at + 1) % this.#servers.length;
      if (turn === most || (!safe && fault instanceof Unreachable)) throw fault;
    }
  }

  #fault(status, text) {
    try {
      const told = toldIn(text);
      if (typeof told.refused === "number") return faultOf(told, status);
    } catch { /* it is no answer of mvd */ }
    return new Unreachable(`${this.name} answers ${status}`);
  }

  async #value(path, request) { return toldIn(await this.#ask("GET", path, request)); }

  async #lines(path, lines, request) {
    const told = linesOf(await this.#ask("POST", path, { body: lines.join("\n"), ...request }));
    if (told.length !== lines.length) throw new Unreachable("the response has another number of lines");
    return told;
  }

  // ---- one key

  async get(key) {
    if (DOTS.test(key)) return new State(key, (await this.states([key]))[0].state);
    return new State(key, stateOf(await this.#value(keyPath(key))));
  }

  /** Writes a document in place of what was seen. Where no response came it looks for the write at each server; where
   *  none has it, it is Unreachable, and the write may be stored all the same. */
  async put(key, document, seen) {
    const context = seenContext(seen), text = documentText(document), path = keyPath(key);
    try {
      const { dot, context: now } = await this.#put(path, key, text, context);
      return { key, dot, context: now };
    } catch (fault) {
      const dot = fault instanceof Unreachable ? await this.#find(key, text, context) : undefined;
      if (dot === undefined) throw fault;
      return { key, dot, context: withDot(context, dot) };
    }
  }

  async #put(path, key, text, context) {
    const told = contextText(context);
    if (told.length < LONG_CONTEXT && !DOTS.test(key)) {
      return toldIn(await this.#ask("PUT", path, { body: text, context: told, safe: false }));
    }
    const [line] = await this.#lines("/keys", [writeLine(key, context, text)], { safe: false });
    if (line.refused !== undefined) throw faultOf(line);
    return { dot: line.dot, context: withDot(context, line.dot) };
  }

  /** The dot of a sibling with this text that the context has not seen, at any server that answers. */
  async #find(key, text, context) {
    for (const server of this.#servers) {
      const state = await this.#only(server).get(key).catch(() => undefined);
      const found = state?.siblings.find((one) => one.text === text && !holds(context, readDot(one.dot)));
      if (found) return found.dot;
    }
    return undefined;
  }

  /** Deletes what was seen. It may be repeated. */
  async delete(key, seen) {
    const [line] = await this.#lines("/keys", [writeLine(checkKey(key), seenContext(seen))]);
    if (line.refused !== undefined) throw faultOf(line);
  }

  resolve(key, merge) { return resolveAt(this, key, merge); }

  // ---- many keys

  /** The states of many keys, in their order. */
  async *getMany(keys) {
    for (const window of cut([...keys], WINDOW_LINES)) {
      let waiting = window;
      while (waiting.length) {
        const told = await this.states(waiting);
        for (const { key, state, fault } of told.filter((item) => !item.later)) {
          if (fault) throw fault;
          yield new State(key, state);
        }
        waiting = told.filter((item) => item.later).map((item) => item.key);
      }
    }
  }

  /** Many writes, { key, document, seen } or a delete { key, seen }: for each { dot }, {} or { fault }, in order. None
   *  is repeated. */
  async *write(writes) {
    for await (const window of windows(writeLines(writes))) {
      const told = await this.#lines("/keys", window.map((one) => one.line), { safe: false });
      yield* told.map((line) => (line.refused === undefined ? line : { fault: faultOf(line) }));
    }
  }

  /** Joins states, as `get` gave them, into the server's: for each {} or { fault }. It may be repeated. */
  async push(states) {
    const lines = [...states].map((state) => ({ line: pushLine(checkKey(state.key), stateOf(state)) })), out = [];
    for await (const window of windows(lines)) out.push(...await this.deliver(window));
    return out.map((fault) => (fault ? { fault } : {}));
  }

  // ---- lists, page by page

  async *#pages(path, member, given) {
    for (let after; ;) {
      const page = await this.#value(query(path, { ...given, after }));
      yield page[member];
      if (page.next === undefined) return;
      after = page.next;
    }
  }

  /** The keys held, rising: { key, siblings }; with `documents` their states. */
  async *keys({ prefix, live, documents = false, limit } = {}) {
    yield* this.#held("/keys", { prefix, live, documents, limit });
  }

  /** The keys with more than one sibling. */
  async *conflicts({ documents = false } = {}) { yield* this.#held("/conflicts", { documents }); }

  async *#held(path, given) {
    for await (const page of this.#pages(path, "keys", given)) {
      if (!given.documents) yield* page;
      else if (page.some((one) => !Array.isArray(one.siblings))) yield* this.getMany(page.map((one) => one.key));
      else yield* page.map((one) => new State(one.key, stateOf(one)));
    }
  }

  /** The places of an index where a field has a term: { term, key, dot }, with `documents` the document, too. */
  find(field, term, { documents = false } = {}) { return this.#places(field, { is: valueText(term, []), documents }); }

  range(field, from, to, { documents = false } = {}) {
    return this.#places(field, { from: valueText(from, []), to: valueText(to, []), documents });
  }

  async *#places(field, given) {
    for await (const page of this.#pages(`/index/${encodeURIComponent(field)}`, "places", given)) {
      yield* given.documents ? await this.#withDocuments(page) : page;
    }
  }

  /** Places with their documents, but for those whose sibling was replaced meanwhile. */
  async #withDocuments(places) {
    const missing = places.filter((place) => place.document === undefined), told = new Map();
    for await (const { key, siblings } of this.getMany(new Set(missing.map((place) => place.key)))) {
      for (const { dot, document } of siblings) told.set(`${dot} ${key}`, document);
    }
    const documentOf = (place) => place.document ?? told.get(`${place.dot} ${place.key}`);
    return places.map((place) => ({ ...place, document: documentOf(place) })).filter((place) => place.document);
  }

  async *rows(view) {
    for await (const page of this.#pages(`/views/${encodeURIComponent(view)}/rows`, "rows", {})) yield* page;
  }

  row(view, term) { return this.#value(query(`/views/${encodeURIComponent(view)}/row`, { is: valueText(term, []) })); }

  root() { return this.#value("/root"); }

  /** What changes, for good: { keys, resync, root }, with `states` the states, too. After a `resync` list the keys. */
  async *follow({ since, prefix, wait = 25, states = false, signal } = {}) {
    while (!signal?.aborted) {
      const told = await this.changes({ since, prefix, wait: since ? wait : 0, states, signal }), server = this.name;
      const given = states ? await this.#given(told.items) : [];
      // Another server, which may not have heard of all changes yet, told some of the states: ask anew.
      if (this.name !== server) continue;
      since = told.root;
      if (told.busy) await new Promise((done) => { setTimeout(done, 1000); });
      const { root, resync, items } = told;
      if (resync || items.length) yield { root, resync, keys: items.map((item) => item.key), states: given };
    }
  }

  /** The states of what changed; those that were not told with it are got. */
  async #given(items) {
    const told = new Map(items.filter((item) => item.state).map((item) => [item.key, new State(item.key, item.state)]));
    const missing = items.map((item) => item.key).filter((key) => !told.has(key));
    for await (const state of this.getMany(missing)) told.set(state.key, state);
    return items.map((item) => told.get(item.key));
  }

  // ---- what a session asks

  /** A client of the server that is asked now, and of no other. */
  pinned() { return this.#servers.length === 1 ? this : this.#only(this.name); }

  #only(server) { return new Client(server, { ...this.#options, fetch: this.#fetch }); }

  /** Goes on to the next server, unless so many were all. */
  pass(tried) {
    this.#at = (this.#at + 1) % this.#servers.length;
    return tried < this.#servers.length;
  }

  /** What is told of a key: its state, a fault, that it comes later, or no more than that it changed. */
  #item(told, key = told.key) {
    if (typeof told === "string") return { key: told };
    if (told.refused !== undefined) return { key, fault: faultOf(told) };
    if (told.later || told.siblings === undefined) return { key, later: true };
    try { return { key, state: stateOf(told) }; } catch (fault) { return { key, fault }; }
  }

  async changes({ since, prefix, wait = 0, states = false, signal } = {}) {
    const path = query("/changes", { since, prefix, wait: wait || undefined, states });
    const told = await this.#value(path, { wait, signal });
    const items = told.keys.map((one) => this.#item(one)).filter((item) => item.key.startsWith(prefix ?? ""));
    const more = told.keys.length >= WINDOW_LINES;
    return { root: told.root, resync: told.resync, items, more, busy: told.wait === 0 };
  }

  async digests(prefix, after, signal) {
    const page = await this.#value(query("/keys", { prefix, digests: true, after }), { signal });
    return { keys: page.keys.map((one) => [one.key, one.digest]), next: page.next };
  }

  async #tree(paths, signal) {
    return linesOf(await this.#ask("GET", query("/tree", { paths: paths.join(",") }), { signal }));
  }

  async nodes(paths, signal) { return (await this.#tree(paths, signal)).map((node) => node.children); }

  async buckets(paths, signal) {
    const pages = await this.#tree(paths, signal);
    return Promise.all(pages.map(async ({ keys, next }, i) => {
      while (next !== undefined) {
        const page = await this.#value(query("/tree", { path: paths[i], after: next }), { signal });
        keys.push(...page.keys);
        next = page.next;
      }
      return keys.map((one) => [one.key, one.digest]);
    }));
  }

  async states(keys, signal) {
    const told = await this.#lines("/get", keys.map(quoted), { signal });
    return told.map((line, i) => this.#item(line, keys[i]));
  }

  /** Pushes states, { key, state, line }: for each its refusal, or nothing. */
  async deliver(window, signal) {
    const told = await this.#lines("/push", window.map((one) => one.line), { signal });
    return told.map((line) => (line.refused === undefined ? undefined : faultOf(line)));
  }
}

// ---------------------------------------------------------------- merges that work
// Each gives the same whatever the order of the documents, and however often one of them comes: so whoever resolves,
// and wherever, comes to the same document. docs/OFFLINE.md says which is for what.

const distinct = (texts) => [...new Set(texts)].sort(byBytes);
const termText = (value) => valueText(value, []);
const memberTexts = (documents) => {
  const out = new Map();
  for (const document of documents) {
    for (const [name, value] of Object.entries(document)) {
      if (!out.has(name)) out.set(name, []);
      out.get(name).push(value);
    }
  }
  return out;
};

/** Keeps what each wrote: a member that all have alike stays; where they differ it is the list of all values, and lists
 *  are joined. */
export function keepBoth(documents) {
  const members = new Map();
  for (const [name, values] of memberTexts(documents)) {
    const whole = distinct(values.map(termText)), items = distinct(values.flat().map(termText));
    members.set(name, whole.length === 1 ? whole[0] : `[${items}]`);
  }
  return parse(objectText(members));
}

/** The document whose whole number `field` is the greatest; of several the one whose text is. */
export function greatest(documents, field) {
  const isNumber = (value) => typeof value === "number" || typeof value === "bigint";
  const rank = (document) => (isNumber(document[field]) ? document[field] : undefined);
  return [...documents].sort((a, b) => {
    const x = rank(a), y = rank(b);
    if (x !== y) return x === undefined ? 1 : y === undefined ? -1 : x > y ? -1 : 1;
    return byBytes(compact(b), compact(a));
  })[0];
}

/** A set in which each thing has a count for each writer: { thing: { writer: [added, taken] } }, whose numbers only
 *  grow. */
export function mergeCounts(documents) {
  const things = new Map();
  for (const document of documents) {
    for (const [thing, writers] of Object.entries(document)) {
      if (!things.has(thing)) things.set(thing, new Map());
      for (const [writer, [added, taken]] of Object.entries(writers)) {
        const [a, t] = things.get(thing).get(writer) ?? [0, 0];
        things.get(thing).set(writer, [a > added ? a : added, t > taken ? t : taken]);
      }
    }
  }
  const text = (writers) => objectText(new Map([...writers].map(([writer, pair]) => [writer, valueText(pair, [])])));
  return parse(objectText(new Map([...things].map(([thing, writers]) => [thing, text(writers)]))));
}

/** The set after its writer added so many of a thing, or, where `count` is negative, took them. */
export function addCount(document, writer, thing, count) {
  const [added, taken] = document[thing]?.[writer] ?? [0, 0];
  const pair = count > 0 ? [added + count, taken] : [added, taken - count];
  return { ...document, [thing]: { ...document[thing], [writer]: pair } };
}

/** How many of a thing there are. */
export const countOf = (document, thing) =>
  Object.values(document[thing] ?? {}).reduce((sum, [added, taken]) => sum + added - taken, 0);
