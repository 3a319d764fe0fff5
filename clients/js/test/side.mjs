// A site of the module as the far side of a session, asked as a server is: for tests that need no server. It forgets its roots when
// it is told to, as a server that was restarted does, and its line may be cut at any request.
import { Unreachable } from "../mvd.js";

export class Side {
  name = "side";
  requests = 0;
  log = [];
  #roots = new Map();
  #left = Infinity;
  #kind = 0;
  #wait = Infinity;
  #act;

  /** It tells so many states and keys at once; with `plain` it tells no digests in lists. */
  constructor(site, told = Infinity, plain = false) {
    Object.assign(this, { site, told, plain });
  }

  pinned() { return this; }

  pass() { return false; }

  forget() { this.#roots.clear(); }

  /** After so many requests the line is cut: before one is done, in its midst, or before its response comes. */
  cut(requests, kind) {
    this.#left = requests;
    this.#kind = kind;
  }

  /** Before so many requests more are done, something else is. */
  beside(requests, act) {
    this.#wait = requests;
    this.#act = act;
  }

  async #ask(some, act) {
    this.requests++;
    if (this.#wait-- === 0) await this.#act();
    if (this.#left-- > 0) return act(some);
    const part = this.#kind === 0 ? [] : this.#kind === 1 ? some.slice(0, some.length >> 1) : some;
    if (part.length) await act(part);
    throw new Unreachable("cut");
  }

  changes({ since, prefix = "", states = false }) {
    return this.#ask([since], async () => {
      const { seq } = await this.site.clock(), root = await this.site.root(), from = this.#roots.get(since);
      if (!this.#roots.has(root)) this.#roots.set(root, seq);
      if (from === undefined) return { root, resync: true, items: [], more: false };
      const keys = (await this.site.since(from)).map(([key]) => key).filter((key) => key.startsWith(prefix)), given = await this.site.give(keys);
      return { root, resync: false, items: keys.map((key, i) => (states && i < this.told ? { key, state: given[i] } : { key, later: true })), more: false };
    });
  }

  digests(prefix, after) {
    return this.#ask([prefix], async () => {
      const rows = await this.site.rows(prefix, after), page = rows.slice(0, this.told);
      const next = rows.length > page.length ? page[page.length - 1][0] : undefined;
      return { keys: page.map(([key, row]) => [key, this.plain ? undefined : row.digest]), next };
    });
  }

  nodes(paths) { return this.#ask(paths, async (some) => { const tree = await this.site.tree(); return some.map((path) => tree.children(path)); }); }

  buckets(paths) { return this.#ask(paths, async (some) => { const tree = await this.site.tree(); return some.map((path) => tree.bucket(path)); }); }

  states(keys) {
    return this.#ask(keys, async (some) => {
      const given = await this.site.give(some);
      return some.map((key, i) => (i < this.told ? { key, state: given[i] } : { key, later: true }));
    });
  }

  deliver(window) {
    return this.#ask(window, async (some) => {
      const out = await this.site.take(some.map(({ key, state }) => [key, state]));
      out.forEach((one, i) => this.log.push(["push", window[i].key, window[i].state, one.fault]));
      return out.map((one) => one.fault);
    });
  }
}
