// The page itself with no network: its files come from the network where there is one, and else from what was kept.
const FILES = ["./", "notes.js", "mvd.js"];

addEventListener("install", (event) => event.waitUntil(caches.open("notes").then((kept) => kept.addAll(FILES)).then(() => skipWaiting())));
addEventListener("activate", (event) => event.waitUntil(clients.claim()));
addEventListener("fetch", (event) => {
  const own = FILES.some((file) => new URL(file, location.href).pathname === new URL(event.request.url).pathname);
  if (event.request.method !== "GET" || !own) return;
  event.respondWith(fetch(event.request).then(async (response) => {
    if (response.ok) await (await caches.open("notes")).put(event.request, response.clone());
    return response;
  }).catch(() => caches.match(event.request)));
});
