// Five sites of the module and two servers that meet. Half of the sessions are cut at a random request, some because their server is killed:
// in the end all roots are equal, no edit is gone that nobody replaced, and none that was replaced is back. The last line is what was seen.
//
// usage: node mesh.mjs PROGRAM FOLDER SEED STEPS PORT      the servers take PORT, PORT + 1, PORT + 100 and PORT + 101
import assert from "node:assert/strict";
import path from "node:path";
import { Site, Client, Unreachable } from "../mvd.js";
import { serve, cutAt, dice, sleep } from "./program.mjs";

const [program, folder, seed, steps, port] = process.argv.slice(2).map((word, i) => (i < 2 ? word : +word));
const random = dice(seed), key = () => `${["a", "u1/", "u2/"][random(3)]}${random(5)}`;
const start = (i) => serve(program, path.join(folder, `mesh${seed}-${i}.db`), i + 1, port + i, ["--peer", port + 1 - i, "--every", 1]);
const servers = [await start(0), await start(1)], urls = servers.map((one) => one.url), clients = urls.map((url) => new Client(url));
const sites = [], written = new Set(), replaced = new Set(), told = { syncs: 0, cut: 0, refused: 0 };
for (let i = 0; i < 5; i++) {
  sites.push(await Site.open("", i < 3 ? {} : { site: 10 + i }));
  if (i < 3) await sites[i].claim(urls[0]);
}
assert.equal(new Set(sites.map((site) => site.number)).size, 5);

/** An edit in place of what was seen, or of nothing. */
async function edit(where) {
  const name = key(), state = await where.get(name), blind = random(5) === 0, text = `{"n":${written.size},"seed":${seed}}`;
  if (!blind) state.siblings.forEach((one) => replaced.add(one.text));
  if (random(6) === 0 && !blind) return where.delete(name, state);
  written.add(text);
  return where.put(name, text, blind ? undefined : state);
}

/** A session, which is cut at one of its first requests, or goes on over the next server or the same. Many take one request or two. */
async function meet(site) {
  const kind = random(8), fetch = kind < 7 ? cutAt(random, [0, 0, 1, 1, 2][random(5)], kind === 0) : undefined;
  const order = random(2) ? urls : [...urls].reverse(), prefix = ["", "", "u1/", "u2/"][random(4)];
  told.syncs++;
  try {
    const report = await site.sync(random(3) ? order[0] : order, { fetch, prefix, whole: random(8) === 0 });
    told.refused += report.refused.length;
  } catch (fault) {
    if (!(fault instanceof Unreachable)) throw fault;
    told.cut++;
  }
}

/** A server ends in the midst of what it is asked, and begins again. */
async function kill() {
  const i = random(2), going = Promise.all([meet(sites[random(5)]), meet(sites[random(5)])]);
  await sleep(random(10) / 1000);
  await servers[i].stop();
  await going;
  await meet(sites[random(5)]);
  servers[i] = await start(i);
}

for (let step = 1; step <= steps; step++) {
  const r = random(20);
  if (step % 97 === 0) await kill();
  else if (r < 9) await edit(sites[random(5)]);
  else if (r < 12) await edit(clients[random(2)]);
  else await meet(sites[random(5)]);
}
const rootOf = async (where) => {
  const told = await where.root();
  return told.root ?? told;
};
const roots = async () => new Set(await Promise.all([...sites, ...clients].map(rootOf)));
for (let turn = 0; (await roots()).size > 1 && turn < 40; turn++) {
  for (const site of sites) for (const url of urls) await site.sync(url);
  await sleep(0.2);
}
assert.equal((await roots()).size, 1, "one root");
const there = new Set((await sites[4].all()).flatMap((state) => state.siblings.map((one) => one.text)));
assert.deepEqual([...written].filter((text) => !there.has(text) && !replaced.has(text)), [], "gone, and nobody replaced it");
assert.deepEqual([...there].filter((text) => replaced.has(text)), [], "there, though it was replaced");
console.log(JSON.stringify({ seed, steps, ...told, documents: written.size, there: there.size }));
await Promise.all(servers.map((one) => one.stop()));
