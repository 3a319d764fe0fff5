// Servers of the built program, for tests.
import { spawn } from "node:child_process";

/** Starts a server and waits until it listens. `stop` kills it, as a machine does that goes off. */
export async function serve(program, file, site, port, words = []) {
  const all = ["serve", "--db", file, "--site", site, "--port", port, "--http", port + 100, ...words].map(String);
  const child = spawn(program, all, { stdio: ["ignore", "pipe", "ignore"] }), kill = () => child.kill("SIGKILL");
  process.once("exit", kill);
  const ended = new Promise((done) => { child.on("exit", done); });
  await Promise.race([new Promise((done) => { child.stdout.once("data", done); }), ended.then(() => { throw new Error("the server ended"); })]);
  child.stdout.resume();
  return { url: `http://127.0.0.1:${port + 100}`, stop: () => { kill(); process.off("exit", kill); return ended; } };
}

/** A fetch over a line that is cut at one request: before it leaves, before its response comes, or in the midst of the response. Then
 *  nothing comes through, or, where it `heals`, what is asked next. */
export const cutAt = (random, at, heals) => async (url, given) => {
  const turn = at--, kind = turn > 0 || (turn < 0 && heals) ? 3 : turn < 0 ? 0 : random(3);
  if (kind === 0) throw new TypeError("lost before");
  const response = await fetch(url, given);
  if (kind === 1) throw new TypeError("lost behind");
  if (kind === 2) return { status: response.status, text: () => Promise.reject(new TypeError("lost within")) };
  return response;
};

/** Random numbers from a seed. */
export const dice = (seed) => (most) => {
  seed = (seed + 0x6d2b79f5) | 0;
  let t = Math.imul(seed ^ (seed >>> 15), 1 | seed);
  t = (t + Math.imul(t ^ (t >>> 7), 61 | t)) ^ t;
  return ((t ^ (t >>> 14)) >>> 0) % most;
};

export const sleep = (seconds) => new Promise((done) => { setTimeout(done, 1000 * seconds); });
