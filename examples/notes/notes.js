// Notes that are written with no network, and meet a server of `mvd` when there is one. `mvd.js` lies beside this file.
import { Site } from "./mvd.js";

const $ = (id) => document.getElementById(id);
const PREFIX = "note/";
const site = await Site.open("notes");
let met = "not met since this page was opened", ends;

/** An element with what stands in it. */
function make(name, given, ...inside) {
  const node = Object.assign(document.createElement(name), given);
  node.append(...inside);
  return node;
}

function tell() {
  $("state").textContent = site.number ? `Site ${site.number}. ${localStorage.server ?? "No server"}: ${met}.`
    : "This page has to meet its server once: then it can write, with a network or without.";
  $("new").hidden = !site.number;
}

// ---- the list

/** A note. What is written replaces what it showed, and what was written there before. */
function note(state) {
  const item = make("li", { id: state.key }), apart = state.siblings.length > 1;
  let seen = Promise.resolve(state);
  const write = (document) => { seen = seen.then((read) => site.put(state.key, document, read)); seen.then(changed); };
  const button = (text, className, onclick) => make("button", { className, onclick }, text);
  if (apart) {
    item.className = "apart";
    item.append(make("p", {}, `Written in ${state.siblings.length} places that did not know of each other:`));
  }
  for (const sibling of state.siblings) {
    const area = make("textarea", { value: sibling.document.text ?? sibling.text, ariaLabel: `Note, version ${sibling.dot}` });
    area.onchange = () => write({ text: area.value });
    area.onblur = changed;
    item.append(area);
    if (apart) item.append(button("Keep this one", "", () => write(sibling.document)));
  }
  const all = state.documents.map((one) => one.text).join("\n---\n");
  if (apart) item.append(button("Keep all in one note", "both", () => write({ text: all })));
  item.append(button("Delete", "delete", () => seen.then((read) => site.delete(state.key, read))));
  return item;
}

let shown = Promise.resolve(), waiting = false;

/** Many changes are shown at once. */
function changed() {
  if (waiting) return;
  waiting = true;
  setTimeout(() => { waiting = false; shown = shown.then(draw); }, 50);
}

/** Shows the notes. One that somebody types in or presses stays in its place, and what has the focus keeps it. */
async function draw() {
  const states = await site.all(PREFIX), list = $("notes"), focused = document.activeElement, old = focused?.closest?.("#notes li");
  const held = list.querySelector("li:active") ?? (focused?.matches?.("textarea") ? old : null);
  const items = states.reverse().map((state) => (held?.id === state.key ? held : note(state))), at = items.indexOf(held);
  if (at < 0) list.replaceChildren(...items);
  else {
    for (const item of [...list.children]) if (item !== held) item.remove();
    held.before(...items.slice(0, at));
    held.after(...items.slice(at + 1));
  }
  const parts = (item) => [...item?.querySelectorAll("textarea, button") ?? []], now = parts(old && $(old.id));
  if (old && old !== held && now.length === parts(old).length) now[parts(old).indexOf(focused)].focus();
  tell();
}

$("new").onsubmit = async (event) => {
  event.preventDefault();
  const key = `${PREFIX}${Date.now().toString(36)}-${site.number}`, text = $("text").value;
  $("text").value = "";
  await site.put(key, { text });
};

// ---- the server

/** Claims a number where the store has none, and then stays in touch: one tab does it for all. */
async function meet() {
  const { server, token } = localStorage, signal = (ends = new AbortController()).signal;
  const fault = (error) => { met = error.message; tell(); };
  while (!site.number && !signal.aborted) {
    await site.claim(server, { token }).catch(fault);
    if (!site.number) await new Promise((done) => setTimeout(done, 2000));
  }
  tell();
  const onsync = ({ refused }) => { met = `met at ${new Date().toLocaleTimeString()}${refused.length ? `, ${refused.length} notes refused` : ""}`; tell(); };
  await navigator.locks.request("notes", { signal }, () => site.follow(server, { token, prefix: PREFIX, signal, onsync, onfault: fault })).catch(() => {});
}

$("door").onsubmit = (event) => {
  event.preventDefault();
  localStorage.server = $("server").value;
  localStorage.token = $("token").value;
  ends?.abort();
  meet();
};

$("server").value = localStorage.server ?? "";
$("token").value = localStorage.token ?? "";
site.subscribe(changed);
await draw();
if (localStorage.server) meet();
if ("serviceWorker" in navigator) await navigator.serviceWorker.register("sw.js");
await navigator.storage?.persist?.();
