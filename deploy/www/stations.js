// Stations: a table, a map, and the channels of one of them.
import { addressFor, find, go, make, note, state, table } from "./parts.js";
import { mapIn } from "./map.js";
import { channels, stations, textOfError } from "./services.js";

const view = document.getElementById("view-stations");
const told = find(view, ".told");
const form = find(view, "form");
const below = find(view, ".channels");
let coming = null;
let mapped = null;
let all = [];
let map = null;
// The address of the list, to which that of a station is added.
let kept = "";
let listed = "";
let opened = "";

const codeOf = (s) => `${s.network}.${s.station}`;
const openedBy = (s) => `${kept}net=${s.network}&sta=${s.station}`;

const COLUMNS = [
  { key: "code", title: "Station", order: codeOf, show: (s) => make("a", { href: openedBy(s) }, codeOf(s)) },
  { key: "site", title: "Site", order: (s) => s.site, show: (s) => s.site },
  { key: "latitude", title: "Latitude", isNumber: true, order: (s) => s.latitude, show: (s) => String(s.latitude) },
  { key: "longitude", title: "Longitude", isNumber: true, order: (s) => s.longitude, show: (s) => String(s.longitude) },
  { key: "elevation", title: "Elevation (m)", isNumber: true, order: (s) => s.elevation, show: (s) => String(s.elevation) },
  { key: "from", title: "From", order: (s) => s.from, show: (s) => s.from.slice(0, 10) },
  { key: "to", title: "To", order: (s) => s.to, show: (s) => s.to.slice(0, 10) || "today" },
];

const CHANNEL_COLUMNS = [
  { title: "Channel", show: (c) => `${c.location || "--"}.${c.channel}` },
  { title: "Rate (Hz)", isNumber: true, show: (c) => c.rate },
  { title: "Depth (m)", isNumber: true, show: (c) => c.depth },
  { title: "Azimuth (°)", isNumber: true, show: (c) => c.azimuth },
  { title: "Dip (°)", isNumber: true, show: (c) => c.dip },
  { title: "Sensor", show: (c) => c.sensor },
  { title: "From", show: (c) => c.from.slice(0, 10) },
  { title: "To", show: (c) => c.to.slice(0, 10) || "today" },
  { title: "Records", show: (c) => make("a", { href: addressFor("records", { net: c.network, sta: c.station, loc: c.location || "--", cha: c.channel }) }, "what there is") },
];

// Lists the stations that match the filter, unless they are listed so.
function list(words) {
  const key = JSON.stringify([words.filter, words.sort, words.down]);
  if (key === listed) return;
  listed = key;
  const filter = (words.filter ?? "").toLowerCase();
  const { net, sta, ...rest } = words;
  kept = addressFor("stations", rest);
  kept += kept.includes("?") ? "&" : "?";
  const chosen = all.filter((s) => `${codeOf(s)} ${s.site}`.toLowerCase().includes(filter));
  told.textContent = `${chosen.length} of ${all.length} lines`;
  table(find(view, ".stations"), "Stations, a line for each epoch of one", COLUMNS, chosen, { by: words.sort ?? "code", down: words.down === "1" }, (by, down) => {
    go("stations", { ...state().words, sort: by, down: down ? "1" : "" });
  });
  map?.show(chosen.map((s) => ({ latitude: s.latitude, longitude: s.longitude, radius: 5, text: `${codeOf(s)} ${s.site}`, chosen: () => { location.hash = openedBy(s); } })));
}

// Opens the channels of the station that is chosen, if one is.
async function open({ net, sta }) {
  const key = sta ? `${net ?? "*"}.${sta}` : "";
  below.hidden = !key;
  if (key === opened) return;
  opened = key;
  if (!key) return;
  const says = find(below, ".told");
  const title = find(below, "h3");
  title.textContent = `Channels of ${key}`;
  find(below, "table").replaceChildren();
  says.textContent = "Asking …";
  title.focus();
  try {
    const found = await channels({ net, sta });
    if (opened !== key) return;
    says.textContent = `${found.length} lines`;
    table(find(below, "table"), `Channels of ${key}, a line for each epoch of one`, CHANNEL_COLUMNS, found);
    below.scrollIntoView({ block: "nearest" });
  } catch (error) {
    if (opened !== key) return;
    opened = "";
    says.textContent = textOfError(error);
  }
}

// Asks for all stations, once, and has the map made meanwhile.
async function fetched() {
  mapped ??= mapIn(find(view, ".map"));
  [all, map] = await Promise.all([stations({}), mapped]);
}

export async function show(words) {
  form.elements.filter.value = words.filter ?? "";
  if (!coming) told.textContent = "Asking …";
  coming ??= fetched();
  try {
    await coming;
  } catch (error) {
    coming = null;
    told.textContent = textOfError(error);
    return;
  }
  list(state().words);
  note(view);
  await open(words);
}

form.addEventListener("submit", (event) => event.preventDefault());
form.elements.filter.addEventListener("input", () => {
  go("stations", { ...state().words, filter: form.elements.filter.value }, true);
  if (all.length) list(state().words);
});
find(below, "button").addEventListener("click", () => {
  const { net, sta, ...rest } = state().words;
  go("stations", rest);
  [...find(view, ".stations").querySelectorAll("a")].find((link) => link.textContent === `${net}.${sta}`)?.focus();
});
