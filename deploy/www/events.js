// Events: a table, and a map by magnitude.
import { addressFor, find, go, note, state, table } from "./parts.js";
import { mapIn } from "./map.js";
import { events, textOfError } from "./services.js";

const view = document.getElementById("view-events");
const told = find(view, ".told");
const form = find(view, "form");
const NAMES = ["start", "end", "minmag"];
const MOST = 5000;
let map = null;
let asked = null;
let all = [];

const magnitude = (e) => `${e.magnitude ?? ""} ${e.type}`.trim();
const time = (e) => e.time.slice(0, 19).replace("T", " ");

const COLUMNS = [
  { key: "time", title: "Time (UTC)", order: (e) => e.time, show: time },
  { key: "magnitude", title: "Magnitude", isNumber: true, order: (e) => e.magnitude, show: magnitude },
  { key: "place", title: "Place", order: (e) => e.place, show: (e) => e.place },
  { key: "latitude", title: "Latitude", isNumber: true, order: (e) => e.latitude, show: (e) => String(e.latitude) },
  { key: "longitude", title: "Longitude", isNumber: true, order: (e) => e.longitude, show: (e) => String(e.longitude) },
  { key: "depth", title: "Depth (km)", isNumber: true, order: (e) => e.depth, show: (e) => String(e.depth ?? "") },
  { key: "catalog", title: "Catalog", order: (e) => e.catalog, show: (e) => e.catalog },
  { key: "id", title: "Event", order: (e) => e.id, show: (e) => e.id },
];

function list(words) {
  told.textContent = all.length === MOST ? `The newest ${MOST} events: choose a shorter span for the others` : `${all.length} event${all.length === 1 ? "" : "s"}`;
  table(find(view, ".events"), "Events, one a line", COLUMNS, all, { by: words.sort ?? "time", down: (words.down ?? "1") === "1" }, (key, down) => {
    go("events", { ...state().words, sort: key, down: down ? "1" : "0" });
  });
}

const pointOf = (e) => ({ latitude: e.latitude, longitude: e.longitude, radius: 3 + 1.6 * Math.max(0, (e.magnitude ?? 0) - 2), text: `${magnitude(e)} ${e.place} ${time(e)}` });

async function askedFor(given) {
  told.textContent = "Asking …";
  try {
    all = await events({ ...given, limit: MOST });
  } catch (error) {
    all = [];
    find(view, ".events").replaceChildren();
    map?.show([]);
    told.textContent = textOfError(error);
    return false;
  }
  map ??= await mapIn(find(view, ".map"));
  // The greatest first, so that none hides a smaller one.
  map?.show([...all].sort((a, b) => (b.magnitude ?? 0) - (a.magnitude ?? 0)).map(pointOf));
  return true;
}

export async function show(words) {
  const given = Object.fromEntries(NAMES.map((name) => [name, words[name] ?? ""]));
  for (const name of NAMES) form.elements[name].value = given[name];
  const key = JSON.stringify(given);
  if (key !== asked) {
    asked = key;
    if (!await askedFor(given)) {
      asked = null;
      return;
    }
    if (asked !== key) return;
  }
  list(state().words);
  note(view);
}

form.addEventListener("submit", (event) => {
  event.preventDefault();
  const to = addressFor("events", Object.fromEntries(NAMES.map((name) => [name, form.elements[name].value.trim()])));
  if (to !== location.hash) location.hash = to;
  else {
    asked = null;
    show(state().words);
  }
});
