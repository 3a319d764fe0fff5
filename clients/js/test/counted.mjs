// How many requests sessions take, at a server that holds nothing yet: in node, and in a page of another origin.

/** Makes 1,000 keys there, copies them to a new site, and changes some at either side. Tells a row for each session. */
export async function counted(site, far, other) {
  const text = (n) => ({ text: "lorem ipsum ".repeat(14), n }), rows = [];
  for await (const { fault } of other.write(Array.from({ length: 1000 }, (_, i) => ({ key: `n${i}`, document: text(i) })))) if (fault) throw fault;

  async function session(what, keys, most, options = {}) {
    const before = far.requests, report = await site.sync(far, options), requests = far.requests - before;
    rows.push(`${what}: ${report.keys} keys, ${requests} requests`);
    const seen = JSON.stringify(report), { root } = await other.root();
    if (seen !== JSON.stringify({ keys, refused: [], older: 0 })) throw new Error(`${what}: ${seen}, where ${keys} keys differ`);
    if (requests > most) throw new Error(`${what}: ${requests} requests, where ${most} are enough`);
    if (root !== await site.root()) throw new Error(`${what}: the roots differ`);
  }

  async function change(where, from, to) {
    for (let i = from; i < to; i++) await where.put(`n${i}`, text(2000 + i), await where.get(`n${i}`));
  }

  await session("first copy of 1,000 keys", 1000, 8);
  await session("nothing changed", 0, 1);
  await change(other, 0, 10);
  await session("10 changed there", 10, 3);
  await change(site, 10, 20);
  await session("10 changed here", 10, 3);
  await session("nothing changed, and what was pushed is told", 0, 2);
  await change(site, 20, 30);
  await change(other, 25, 35);
  await session("10 changed here and 10 there, 5 of them alike", 15, 3);
  await change(other, 0, 10);
  await session("10 changed there, all digests compared", 10, 8, { whole: true });
  return rows;
}
