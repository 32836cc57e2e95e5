// A request, built by choosing: its address, the same with curl, and a button that downloads.
import { addressFor, find, go, make, state } from "./parts.js";
import { addressOf, ask, textOfError } from "./services.js";

const view = document.getElementById("view-request");
const form = find(view, "form");
const told = find(form, ".told");

// Fields: the name, a label, what holds where nothing is given, the unit or form, and the values where there are some alone.
const TIME = "UTC, as 2024-02-01T12:30:00";
const LIMIT = "no limit";
const TRUTH = ["false", "true"];
const CODES = [["net", "Network", "*", "codes, as IU,GE or B?"], ["sta", "Station", "*", "codes"], ["loc", "Location", "*", "codes, -- for the blank one"], ["cha", "Channel", "*", "codes, as BH?"]];
const TIMES = [["start", "From", LIMIT, TIME], ["end", "To", LIMIT, TIME]];
const AREA = [["minlat", "Latitude from", LIMIT, "degrees, -90 to 90"], ["maxlat", "Latitude to", LIMIT, "degrees, -90 to 90"],
  ["minlon", "Longitude from", LIMIT, "degrees, -180 to 180"], ["maxlon", "Longitude to", LIMIT, "degrees, -180 to 180"]];
const NODATA = ["nodata", "Where there is no data", "204", "status", ["204", "404"]];
const TEXT = ["format", "Format", "text", "", ["text"]];
const EXTENT = "extent";

const DATASELECT = [...TIMES, ...CODES, ["quality", "Quality", "B", "B is any", ["B", "D", "R", "Q", "M"]],
  ["minimumlength", "Segments of at least", "0", "seconds"], ["longestonly", "Longest segment only", "false", "", TRUTH],
  ["format", "Format", "miniseed", "miniSEED 2", ["miniseed"]], NODATA];
const STATION = [...TIMES, ["startbefore", "Begins before", LIMIT, TIME], ["startafter", "Begins after", LIMIT, TIME], ["endbefore", "Ends before", LIMIT, TIME],
  ["endafter", "Ends after", LIMIT, TIME], ...CODES, ...AREA, ["level", "Level", "station", "", ["network", "station", "channel"]],
  ["includerestricted", "Also restricted ones", "true", "", ["true"]], ["includeavailability", "With availability", "false", "", ["false"]],
  ["matchtimeseries", "With records only", "false", "", ["false"]], TEXT, NODATA];
const EVENT = [...TIMES, ...AREA, ["mindepth", "Depth from", LIMIT, "kilometres"], ["maxdepth", "Depth to", LIMIT, "kilometres"],
  ["minmag", "Magnitude from", LIMIT, "a number"], ["maxmag", "Magnitude to", LIMIT, "a number"], ["magtype", "Type of the magnitude", "any", "as Mww"],
  ["includeallorigins", "All origins", "false", "", ["false"]], ["includeallmagnitudes", "All magnitudes", "false", "", ["false"]],
  ["includearrivals", "Arrivals", "false", "", ["false"]], ["eventid", "Event", "any", "one id"], ["limit", "At most", LIMIT, "events"],
  ["offset", "Beginning with", "1", "number of the event, from 1"], ["orderby", "Order", "time", "", ["time", "time-asc", "magnitude", "magnitude-asc"]],
  ["catalog", "Catalog", "any", "as the events have it"], ["contributor", "Contributor", "any", "as the events have it"], TEXT, NODATA];
const ORDERS = ["nslc_time_quality_samplerate", "latestupdate", "latestupdate_desc"];
const AVAILABILITY = [...TIMES, ...CODES, ["quality", "Quality", "*", "some of B, D, R, Q, M by commas"],
  ["merge", "Merge over", "nothing is merged", "samplerate, quality, overlap, by commas"], ["mergegaps", "Gaps that don't end a span", "0", "seconds"],
  ["orderby", "Order", ORDERS[0], "", [...ORDERS, "timespancount", "timespancount_desc"]], ["limit", "At most", LIMIT, "lines"],
  ["includerestricted", "Also restricted ones", "false", "", ["false"]], ["format", "Format", "text", "", ["text", "request"]], NODATA];
const SERVICES = {
  dataselect: { title: "Records (dataselect)", methods: ["query"], auth: true, ends: "mseed", fields: DATASELECT },
  station: { title: "Stations (station)", methods: ["query"], auth: false, ends: "txt", fields: STATION },
  event: { title: "Events (event)", methods: ["query"], auth: false, ends: "txt", fields: EVENT },
  availability: { title: "What there is (availability)", methods: ["query", EXTENT], auth: true, ends: "txt", fields: AVAILABILITY },
};

const nameOf = (words) => (SERVICES[words.service] ? words.service : "dataselect");
const of = (words) => SERVICES[nameOf(words)];
const methodOf = (words) => (of(words).methods.includes(words.method) ? words.method : "query");

// The fields of a service that its method has, with the values that it takes.
function fieldsOf(words) {
  const isExtent = methodOf(words) === EXTENT;
  const all = of(words).fields.filter(([name]) => !(isExtent && name === "mergegaps"));
  return all.map(([name, label, byDefault, unit, values]) => [name, label, byDefault, unit, isExtent ? values : values?.filter((it) => !it.startsWith("timespan"))]);
}

// The path and what is asked, without what is the default anyway.
function asked(words) {
  const given = fieldsOf(words).filter(([name, , byDefault]) => words[name] && words[name] !== byDefault);
  const method = words.user === "1" && of(words).auth ? `${methodOf(words)}auth` : methodOf(words);
  return addressOf(nameOf(words), method, Object.fromEntries(given.map(([name]) => [name, words[name]])));
}

function field([name, label, byDefault, unit, values], value) {
  const id = `field-${name}`;
  const more = { id, name, "aria-describedby": `${id}-unit` };
  const input = values ? make("select", more, ...values.map((it) => make("option", { value: it }, it)))
    : make("input", { ...more, placeholder: byDefault, autocomplete: "off", spellcheck: "false" });
  input.value = value ?? (values ? byDefault : "");
  if (values && input.selectedIndex < 0) input.value = byDefault;
  const small = make("small", { id: `${id}-unit` }, make("code", {}, name), unit ? ` ${unit}` : "");
  return make("div", { class: "field" }, make("label", { for: id }, label), input, small);
}

function userField(words) {
  const user = make("input", { id: "field-user", name: "user", type: "checkbox", "aria-describedby": "field-user-unit" });
  user.checked = words.user === "1";
  return make("div", { class: "field" }, user, make("label", { for: "field-user" }, "As a user"), make("small", { id: "field-user-unit" }, "by queryauth, for restricted channels; the browser asks for name and password"));
}

// Builds the form anew, for another service or method or by another address.
function build(words) {
  find(form, ".services").replaceChildren(...Object.entries(SERVICES).map(([name, it]) => {
    const link = make("a", { href: addressFor("request", { ...words, service: name, method: "" }) }, it.title);
    if (name === nameOf(words)) link.setAttribute("aria-current", "true");
    return link;
  }));
  const fields = fieldsOf(words).map((it) => field(it, words[it[0]]));
  const { methods, auth } = of(words);
  if (methods.length > 1) fields.unshift(field(["method", "Method", "query", "query: spans; extent: first to last", methods], methodOf(words)));
  if (auth) fields.push(userField(words));
  const focused = form.contains(document.activeElement) ? document.activeElement.id : "";
  find(form, ".fields").replaceChildren(...fields);
  if (focused) document.getElementById(focused)?.focus();
  told.textContent = "";
}

const quoted = (text) => `'${text.replaceAll("'", "'\\''")}'`;

function tell(words) {
  const address = new URL(asked(words), location.href).href;
  const user = words.user === "1" && of(words).auth ? "--digest -u NAME " : "";
  find(view, ".address").textContent = address;
  find(view, ".curl").textContent = `curl --fail-with-body ${user}-o ${nameOf(words)}.${of(words).ends} ${quoted(address)}`;
}

// What the form says, on top of what the address has of other services.
function wordsOf() {
  const given = Object.fromEntries([...new FormData(form)].map(([name, value]) => [name, value.trim()]));
  for (const [name, , byDefault, , values] of fieldsOf(state().words)) if (values && given[name] === byDefault) given[name] = "";
  return { ...state().words, ...given, user: form.elements.user?.checked ? "1" : "" };
}

let built = "";
const keyOf = (words) => addressFor("request", words);

export function show(words) {
  if (keyOf(words) !== built) build(words);
  built = keyOf(words);
  tell(words);
}

form.addEventListener("input", (event) => {
  const words = wordsOf();
  if (event.target.name === "method") build(words);
  built = keyOf(words);
  go("request", words, true);
  tell(words);
});

function save(body, name) {
  const link = make("a", { href: URL.createObjectURL(body), download: name });
  link.click();
  setTimeout(() => URL.revokeObjectURL(link.href), 60_000);
}

form.addEventListener("submit", async (event) => {
  event.preventDefault();
  const words = wordsOf();
  const button = find(form, "button");
  if (button.getAttribute("aria-disabled") === "true") return;
  button.setAttribute("aria-disabled", "true");
  told.textContent = "Asking …";
  try {
    const body = await ask(asked(words), "blob");
    save(body, `${nameOf(words)}.${of(words).ends}`);
    told.textContent = `${body.size} bytes`;
  } catch (error) {
    told.textContent = textOfError(error);
  }
  button.removeAttribute("aria-disabled");
});

view.addEventListener("click", async (event) => {
  const { copy } = event.target.dataset;
  if (!copy) return;
  const code = find(view, `.${copy}`);
  try {
    await navigator.clipboard.writeText(code.textContent);
    event.target.textContent = "Copied";
  } catch {
    getSelection().selectAllChildren(code);
    event.target.textContent = "Chosen: copy it by the keyboard";
  }
  setTimeout(() => { event.target.textContent = "Copy"; }, 2000);
});
