// Merges, one a line of standard input: [name, documents, ..], each answered with its compact text. tools/clients.py compares them with
// those of clients/python.
import readline from "node:readline";
import { parse, compact, keepBoth, greatest, mergeCounts, addCount, countOf } from "../mvd.js";

const made = { keepBoth, greatest, mergeCounts, addCount, countOf: (...given) => ({ n: countOf(...given) }) };
for await (const line of readline.createInterface({ input: process.stdin })) {
  const [name, ...given] = parse(line);
  console.log(compact(made[name](...given)));
}
