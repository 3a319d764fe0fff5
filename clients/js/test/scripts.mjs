// Runs scripts on sites of the module. Each line of standard input is a script as JSON, a list of lines; each line of standard output is
// { script, told }: what `mvd sim` has to be given, and what the module prints for it. Beside the lines of docs/FORMATS.md there are
//
//   sync S T HOW        a session; HOW is `changes`, or `whole`, which knows no root of before
//   cut S T N KIND      a session whose line is cut at its Nth request. For `mvd sim` it is the states that crossed, each sent and received
//   part S T PREFIX     a session of the keys with a prefix; the same
//   beside S T N KEY DOC   a session, and before its Nth request a put of DOC at site S
//   forget S            the side forgets the roots that it told
import readline from "node:readline";
import { Site, State, Refused, Unreachable, readContext, readDocument } from "../mvd.js";
import { Side } from "./side.mjs";

const said = (fault) => `refused ${fault.number} ${fault.refusal}`;

class Logged extends Site {
  log;

  async take(pairs) {
    const out = await super.take(pairs);
    if (this.log) out.forEach((one, i) => this.log.push(["pull", ...pairs[i], one.fault]));
    return out;
  }

  async give(keys) {
    const states = await super.give(keys);
    if (this.log) keys.forEach((key, i) => this.log.push(["give", key, states[i]]));
    return states;
  }
}

class Run {
  script = [];
  told = [];
  messages = [];

  static async of(lines) {
    const run = new Run(), count = +lines[0].split(" ")[1], max = lines[1].startsWith("max ") ? +lines[1].split(" ")[1] : undefined;
    run.script.push(...lines.slice(0, max ? 2 : 1));
    run.sites = [undefined];
    for (let number = 1; number <= count; number++) run.sites.push(await Logged.open("", { site: number, maxKeys: max }));
    // Every second site tells its states in small portions, so that what comes later is tried. Where sites are full the order tells.
    run.sides = run.sites.map((site, i) => site && new Side(site, max || i % 2 ? Infinity : 2, i > 2));
    run.sides.forEach((side, i) => { if (side) side.name = `side ${i}`; });
    for (const line of lines.slice(max ? 2 : 1)) await run.line(line);
    return { script: run.script, told: run.told };
  }

  async line(line) {
    const [word, ...words] = line.split(" ");
    if (["cut", "part", "beside", "forget"].includes(word)) return this[word](...words);
    this.script.push(word === "sync" ? `sync ${words[0]} ${words[1]}` : line);
    const site = this.sites[+words[0]];
    if (!site) return this.told.push("none such");
    try {
      this.told.push(...[await this[word](site, ...words.slice(1))].flat());
    } catch (fault) {
      if (!(fault instanceof Refused)) throw fault;
      this.told.push(said(fault));
    }
  }

  async seen(site, key, context) { return context === "@" ? (await site.get(key)).context : context; }

  async put(site, key, context, ...document) {
    await site.get(key);
    if (context !== "@") readContext(context);
    const text = document.join(" "), { dot } = await site.put(key, text, await this.seen(site, key, context));
    if (readDocument(text) !== (await site.get(key)).siblings.find((one) => one.dot === dot)?.text) throw new Error("another text");
    return `dot ${dot}`;
  }

  async del(site, key, context) {
    await site.get(key);
    await site.delete(key, await this.seen(site, key, context));
    return "ok";
  }

  async get(site, key) {
    const state = await site.get(key);
    return [`context ${state.context}`, ...state.siblings.map((one) => `${one.dot} ${one.text}`)];
  }

  async send(site, key) {
    this.messages.push([key, await site.get(key)]);
    return `message ${this.messages.length}`;
  }

  async recv(site, number) {
    const message = this.messages[+number - 1];
    if (!message) return "none such";
    await site.push(...message);
    return "ok";
  }

  list(rows) { return rows.length ? rows.map((one) => `${one.key} ${one.siblings}`) : "none"; }

  async keys(site, prefix) { return this.list(await site.keys({ prefix })); }

  async conflicts(site) { return this.list(await site.conflicts()); }

  root(site) { return site.root(); }

  node(site, path) { return site.node(path === "-" ? "" : path || "-"); }

  async sync(site, other, how) {
    const far = this.sides[+other];
    if (!far || far.site === site) return "none such";
    const { keys, refused } = await site.sync(far, { whole: how === "whole" });
    const left = refused.slice(0, 100).map((one) => `left ${one.key} ${one.number} ${one.name}`);
    return [`keys ${keys}`, ...left, ...(refused.length > 100 ? [`left ${refused.length - 100}`] : [])];
  }

  // ---- what `mvd sim` has no line for

  async crossing(site, number, other, options) {
    const far = this.sides[+other], log = [];
    site.log = far.log = log;
    const report = await site.sync(far, options).catch((error) => { if (!(error instanceof Unreachable)) throw error; });
    far.cut(Infinity, 0);
    site.log = undefined;
    far.log = [];
    const given = new Map(), send = (from, key, state) => {
      this.messages.push([key, new State(key, state)]);
      this.script.push(`send ${from} ${key}`);
      this.told.push(`message ${this.messages.length}`);
      return this.messages.length;
    };
    const receive = (to, message, fault) => {
      this.script.push(`recv ${to} ${message}`);
      this.told.push(fault ? said(fault) : "ok");
    };
    for (const [way, key, state, fault] of log) {
      if (way === "put") {
        this.script.push(state);
        this.told.push(fault);
        continue;
      }
      if (!key.startsWith(options.prefix ?? "")) throw new Error(`${key} crossed in a session of ${options.prefix}`);
      if (way === "pull") receive(number, send(other, key, state), fault);
      else if (way === "give") given.set(key, send(number, key, state));
      else receive(other, given.get(key), fault);
    }
    return report;
  }

  async cut(a, b, requests, kind) {
    const site = this.sites[+a], far = this.sides[+b];
    if (!site || !far || a === b) return;
    far.cut(+requests, +kind);
    await this.crossing(site, a, b, { whole: +kind === 1 && +requests % 2 === 1 });
  }

  async part(a, b, prefix) {
    const site = this.sites[+a], far = this.sides[+b];
    if (!site || !far || a === b) return;
    const report = await this.crossing(site, a, b, { prefix });
    const held = async (one) => JSON.stringify((await one.rows(prefix)).map(([key, row]) => [key, row.digest]));
    const mine = await held(site), theirs = await held(far.site);
    if (!report.refused.length && mine !== theirs) throw new Error(`the sides differ after part ${prefix}`);
  }

  async beside(a, b, requests, key, ...document) {
    const site = this.sites[+a], far = this.sides[+b], text = document.join(" ");
    if (!site || !far || a === b) return;
    far.beside(+requests, async () => {
      const told = await site.put(key, text).then(({ dot }) => `dot ${dot}`, said);
      site.log.push(["put", key, `put ${a} ${key} - ${text}`, told]);
    });
    await this.crossing(site, a, b, { whole: +requests % 2 === 0 });
    far.beside(Infinity);
  }

  forget(number) { this.sides[+number]?.forget(); }
}

for await (const line of readline.createInterface({ input: process.stdin })) {
  let out;
  try { out = await Run.of(JSON.parse(line)); } catch (error) { out = { script: [], told: [], error: `${error.stack}` }; }
  process.stdout.write(JSON.stringify(out) + "\n");
}
