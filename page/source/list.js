// The list of capabilities, with its search and its filters.

import { byId, counted, make } from "./dom.js";
import { longNameOf, valueOf } from "./entry.js";
import { shortened } from "./notation.js";

// The most characters of a value in a row, and of a name.
const MOST_VALUE = 160;
const MOST_NAME = 64;
// How many rows a page of keys is.
const PAGE = 12;

const FILTERS = {
  all: () => true,
  parameters: (item) => item.kind === "text" && /%p[1-9]/.test(item.value ?? ""),
  findings: (item) => item.findings.length > 0,
};

function rowOf(item, place, choose) {
  const mark = item.findings.length ? make("span", { class: "mark", title: "has findings" }, "●") : make("span");
  return make(
    "li", { role: "option", id: `row-${place}`, "aria-selected": "false", onclick: choose },
    make("b", {}, shortened(item.name, MOST_NAME)), make("span", { class: "value" }, shortened(valueOf(item), MOST_VALUE)), mark,
  );
}

/** The list. `onChoose` is called with the capability that the user chooses. */
export class CapabilityList {
  constructor(onChoose) {
    this.onChoose = onChoose;
    this.list = byId("list");
    this.shown = [];
    byId("search").addEventListener("input", () => this.draw());
    byId("search").addEventListener("keydown", (event) => this.leaveSearch(event));
    for (const radio of document.getElementsByName("filter")) radio.addEventListener("change", () => this.draw());
    this.list.addEventListener("keydown", (event) => this.onKey(event));
  }

  /** Shows another entry. */
  show(entry) {
    this.entry = entry;
    this.draw();
  }

  draw() {
    const sought = byId("search").value.toLowerCase();
    const filter = FILTERS[document.querySelector("input[name=filter]:checked").value];
    const { items, more } = this.entry;
    this.shown = items.filter((item) => filter(item) && `${item.name} ${longNameOf(item)} ${valueOf(item)}`.toLowerCase().includes(sought));
    this.list.replaceChildren(...this.shown.map((item, place) => rowOf(item, place, () => this.onChoose(item))));
    byId("count").textContent = this.counts(items.length, more);
    this.mark(this.chosen);
  }

  /** How many capabilities are shown of how many, and how many are not even drawn. */
  counts(all, more) {
    const shown = this.shown.length === all ? "" : `${this.shown.length.toLocaleString("en")} of `;
    const rest = more ? `, and ${more.toLocaleString("en")} more that are not drawn` : "";
    return `${shown}${counted(all, "capability", "capabilities")}${rest}`;
  }

  /** Marks the row of the chosen capability, and shows it. */
  mark(item) {
    this.list.querySelector("[aria-selected=true]")?.setAttribute("aria-selected", "false");
    this.chosen = item;
    const row = this.list.children[this.shown.indexOf(item)];
    if (!row) return this.list.removeAttribute("aria-activedescendant");
    row.setAttribute("aria-selected", "true");
    row.scrollIntoView({ block: "nearest" });
    return this.list.setAttribute("aria-activedescendant", row.id);
  }

  /** From the search a key leads to the list. */
  leaveSearch(event) {
    if (event.key === "Escape" && byId("search").value) {
      byId("search").value = "";
      this.draw();
    } else if (event.key === "ArrowDown" || event.key === "Enter") {
      event.preventDefault();
      this.list.focus();
      if (!this.shown.includes(this.chosen) && this.shown.length) this.onChoose(this.shown[0]);
    }
  }

  onKey(event) {
    const at = this.shown.indexOf(this.chosen);
    const last = this.shown.length - 1;
    const places = { ArrowDown: at + 1, ArrowUp: at - 1, PageDown: at + PAGE, PageUp: at - PAGE, Home: 0, End: last };
    const place = places[event.key];
    if (place === undefined || event.ctrlKey || event.altKey || event.metaKey || last < 0) return;
    event.preventDefault();
    this.onChoose(this.shown[Math.min(Math.max(place, 0), last)]);
  }
}
