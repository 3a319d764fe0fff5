// How many requests sessions take.   usage: node requests.mjs PROGRAM FOLDER PORT
import assert from "node:assert/strict";
import path from "node:path";
import { Site, Client } from "../mvd.js";
import { counted } from "./counted.mjs";
import { serve } from "./program.mjs";

const [program, folder, port] = process.argv.slice(2);
const server = await serve(program, path.join(folder, "requests.db"), 1, +port), far = new Client(server.url), other = new Client(server.url);
const site = await Site.open("", { site: 70000 }), rows = await counted(site, far, other);
const text = (n) => ({ text: "lorem ipsum ".repeat(14), n });

const many = await Site.open("", { site: 70001 });
for (let i = 0; i < 3000; i++) await many.put(`m${i}`, text(i));
let before = far.requests;
await many.sync(far);
rows.push(`3,000 keys here and 1,000 there: ${far.requests - before} requests`);
await site.sync(far);
for (let i = 0; i < 10; i++) await other.put(`n${i}`, text(3000 + i), await other.get(`n${i}`));
before = far.requests;
assert.equal((await many.sync(far, { whole: true })).keys, 10);
rows.push(`10 of 4,000 changed, by the tree: ${far.requests - before} requests`);

// More changes than one answer has.
for await (const { fault } of other.write(Array.from({ length: 2500 }, (_, i) => ({ key: `o${i}`, document: i % 50 ? text(i) : { text: "x".repeat(9000) } })))) {
  assert.equal(fault, undefined);
}
before = far.requests;
assert.deepEqual(await site.sync(far), { keys: 2510, refused: [], older: 0 });
assert.equal(await site.root(), (await other.root()).root);
rows.push(`2,510 changed there: ${far.requests - before} requests`);

// A part of the keys: of the others none comes, and none goes.
before = far.requests;
assert.equal((await site.sync(far, { prefix: "m1" })).keys, 0);
const part = await Site.open("", { site: 70002 });
await part.put("elsewhere", text(0));
assert.equal((await part.sync(far, { prefix: "m12" })).keys, 111);
assert.deepEqual((await part.keys()).map((one) => one.key.slice(0, 3)).filter((some) => some !== "m12"), ["els"]);
await part.put("m120", text(1), await part.get("m120"));
await other.put("m121", text(2), await other.get("m121"));
await other.put("n1", text(2), await other.get("n1"));
before = far.requests;
assert.deepEqual(await part.sync(far, { prefix: "m12" }), { keys: 2, refused: [], older: 0 });
rows.push(`2 of the 111 keys of a prefix changed: ${far.requests - before} requests`);
assert.ok(far.requests - before <= 3);
assert.deepEqual((await other.get("m120")).documents, [text(1)]);
assert.equal((await other.get("elsewhere")).context, "-");

// A store that lost what it wrote is told so: the server knows dots of its site that it has not.
assert.equal((await (await Site.open("", { site: 70002 })).sync(far, { prefix: "m12" })).older, 1);
await server.stop();

// What a server refuses is told, and the rest crosses.
const full = await serve(program, path.join(folder, "full.db"), 1, +port + 2, ["--max-keys", 5]), ten = await Site.open("", { site: 70003 });
for (let i = 0; i < 10; i++) await ten.put(`k${i}`, text(i));
for (const keys of [5, 0]) {
  const report = await ten.sync(full.url);
  assert.equal(report.keys, keys);
  assert.deepEqual(report.refused.map(({ side, number, name }) => [side, number, name]), Array(5).fill(["there", 10, "Full"]));
}
await full.stop();
console.log(rows.join("\n"));
