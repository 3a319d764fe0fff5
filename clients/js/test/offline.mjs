// The code of docs/OFFLINE.md, run against a server.   usage: node offline.mjs PROGRAM FOLDER PORT
import assert from "node:assert/strict";
import path from "node:path";
import { Site, Client, keepBoth, addCount, mergeCounts, countOf } from "../mvd.js";
import { serve } from "./program.mjs";

const [program, folder, port] = process.argv.slice(2), running = await serve(program, path.join(folder, "offline.db"), 1, +port);
const server = running.url, token = undefined;

async function holdsACopy() {
  const site = await Site.open("notes");
  await site.claim(server, { token });
  const ada = await site.get("ada");
  await site.put("ada", { city: "Oslo" }, ada);
  await site.resolve("ada", keepBoth);
  const { keys, refused } = await site.sync(server, { token });
  assert.deepEqual([keys, refused], [2, []]);
}

async function asksAServer() {
  await new Client(server).put("ada", { city: "Rome" });
  const client = new Client([server], { token });
  for await (const { key, siblings } of client.conflicts()) {
    if (siblings > 1) await client.resolve(key, keepBoth);
  }
  assert.deepEqual((await client.get("ada")).documents, [{ city: ["Oslo", "Rome"] }]);
}

async function claimsApart() {
  const drawn = [70001, 70001, 70002], draw = () => drawn.shift(), sites = [await Site.open("one"), await Site.open("two")];
  for (const site of sites) await site.claim(server, { draw });
  assert.deepEqual(sites.map((site) => site.number), [70001, 70002]);
}

function fillsACart() {
  const left = addCount({}, "left", "apple", 2), right = addCount({}, "right", "apple", 3);
  const cart = mergeCounts([left, addCount(right, "right", "apple", -1)]);
  assert.equal(countOf(cart, "apple"), 4);
}

fillsACart();
await holdsACopy();
await asksAServer();
await claimsApart();
await running.stop();
