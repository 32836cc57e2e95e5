// The page: which view is shown is said by its address.
import { find, state } from "./parts.js";
import * as stations from "./stations.js";
import * as records from "./records.js";
import * as request from "./request.js";
import * as events from "./events.js";

const VIEWS = { stations, records, request, events };

function show() {
  const { view, words } = state();
  const shown = VIEWS[view] ? view : "stations";
  const was = document.activeElement;
  for (const name of Object.keys(VIEWS)) document.getElementById(`view-${name}`).hidden = name !== shown;
  for (const link of document.querySelectorAll("nav a")) link.ariaCurrent = link.hash === `#${shown}` ? "page" : null;
  const title = find(document.getElementById(`view-${shown}`), "h2");
  document.title = `${title.textContent}: Velkatsa`;
  // Who went on by something of the view before is at the top of this one.
  if (was?.closest("section")?.hidden || was?.closest("section")?.parentElement?.closest("[hidden]")) {
    title.focus();
    scrollTo(0, 0);
  }
  VIEWS[shown].show(words);
}

window.addEventListener("hashchange", show);
show();
