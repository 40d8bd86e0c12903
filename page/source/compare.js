// Two entries side by side: what they have not alike.

import { counted, make } from "./dom.js";
import { diff } from "./engine.js";
import { entryOptions, showOpen, watchPicker } from "./files.js";
import { shortened } from "./notation.js";

// The most characters of a value, and of a name.
const MOST_VALUE = 600;
const MOST_NAME = 64;

/** What an entry has, in words. */
function words(side) {
  if (side.state !== undefined) return side.state;
  return side.value === true ? "yes" : String(side.value);
}

/** How many characters two texts have alike at the start, and then at the end. */
function alike(first, other) {
  const most = Math.min(first.length, other.length);
  let start = 0;
  while (start < most && first[start] === other[start]) start++;
  let end = 0;
  while (end < most - start && first.at(-1 - end) === other.at(-1 - end)) end++;
  return [start, end];
}

/** A cell with what differs marked, if `ends` say how much is alike. */
function cellOf(side, text, ends) {
  if (side.state !== undefined || !ends) return make("td", { class: side.state && "soft" }, text);
  const [from, to] = [ends[0], text.length - ends[1]];
  return make("td", {}, text.slice(0, from), make("mark", {}, text.slice(from, to)), text.slice(to));
}

/** The cell of the name, which leads to the capability. */
function nameCell({ name, kind }, choose) {
  if (name === undefined) return make("td", { class: "soft" }, kind);
  return make("td", {}, make("button", { type: "button", class: "link", onclick: () => choose(name) }, shortened(name, MOST_NAME)));
}

function rowOf(row, choose) {
  const [first, other] = [row.first, row.other].map((side) => shortened(words(side), MOST_VALUE));
  const isText = row.kind === "text" && row.first.value !== undefined && row.other.value !== undefined;
  const ends = isText ? alike(first, other) : undefined;
  return make("tr", {}, nameCell(row, choose), cellOf(row.first, first, ends), cellOf(row.other, other, ends));
}

/** How many differences there are, and of which not all are drawn. */
function sumOf(drawn, more) {
  if (!drawn && !more) return "No difference";
  return `${counted(drawn + more, "difference")}${more ? `, of which ${drawn.toLocaleString("en")} are drawn` : ""}`;
}

/**
 * The view of two entries. `builtIns` are names; `onOther` is called with one that the user chooses, `onFile` with a file, and
 * `onChoose` with the name of a capability.
 */
export class CompareView {
  constructor(root, builtIns, { onOther, onFile, onChoose }) {
    this.root = root;
    this.onChoose = onChoose;
    this.select = make("select", { id: "other", onchange: () => onOther(this.select.value) }, ...entryOptions(builtIns));
    const file = make("input", { type: "file", class: "hidden" });
    watchPicker(file, onFile);
    this.byTokens = make("input", { type: "checkbox", onchange: () => this.draw() });
    this.count = make("p", { class: "soft", role: "status" });
    this.table = make("div", { class: "rows compared", tabindex: "0", role: "region", "aria-label": "Differences" });
    const label = make("label", { for: "other" }, "Compare with ");
    const picker = make("label", { class: "button" }, "Open a file", file);
    const choice = make("label", {}, this.byTokens, " only what expands otherwise");
    const tools = make("div", { class: "tools" }, label, this.select, picker, choice);
    root.replaceChildren(tools, this.count, this.table);
  }

  /** Shows an entry beside another. */
  show(entry, other) {
    this.entry = entry;
    this.other = other;
    showOpen(this.select, other);
    this.draw();
  }

  draw() {
    if (!this.other || this.root.hidden) return;
    const { rows, more } = diff(this.entry.bytes, this.other.bytes, this.byTokens.checked);
    this.count.textContent = sumOf(rows.length, more);
    this.table.replaceChildren(...(rows.length ? [this.tableOf(rows)] : []));
  }

  tableOf(rows) {
    const names = [this.entry, this.other].map((each) => shortened(each.names.split("|")[0], MOST_NAME));
    const head = make("tr", {}, ...["capability", ...names].map((name) => make("th", { scope: "col" }, name)));
    return make("table", {}, make("thead", {}, head), make("tbody", {}, ...rows.map((row) => rowOf(row, this.onChoose))));
  }
}
