// The page: what is open, what is chosen, and how the views follow.

import { readAddress, writeAddress } from "./address.js";
import { CapabilityPanel } from "./capability.js";
import { CompareView } from "./compare.js";
import { ENTRIES } from "./data.js";
import { byId, counted, make } from "./dom.js";
import { bytesOf, memoryInUse, run, start, version } from "./engine.js";
import { readEntry } from "./entry.js";
import { bytesOfFile, entryOptions, showOpen, watchDownload, watchDrops, watchPicker } from "./files.js";
import { findingRow } from "./finding.js";
import { CapabilityList } from "./list.js";
import { shortened } from "./notation.js";
import { Tabs } from "./tabs.js";

const MOST_NAMES = 200;
const BUILT_IN = Object.keys(ENTRIES);

let entry;
let other;

const panel = new CapabilityPanel(byId("capability"), rememberAddress);
const list = new CapabilityList((item) => choose(item));
const tabs = new Tabs(document.querySelector("[role=tablist]"), (shown) => shown === byId("compare") && compare.draw());
const compare = new CompareView(byId("compare"), BUILT_IN, {
  onOther: (name) => {
    tellFaults();
    setOther(builtInEntry(name));
  },
  onFile: (file) => openFiles(undefined, file),
  onChoose: (name) => choose(entry.items.find((item) => item.name === name) ?? entry.items[0]),
});

// The options of `lint`, by their switches.
const OPTIONS = { untrusted: "--untrusted", all: "--all" };

function optionsNow() {
  return Object.keys(OPTIONS).filter((id) => byId(id).checked).map((id) => OPTIONS[id]);
}

function builtInEntry(name) {
  return readEntry(bytesOf(ENTRIES[name]), { builtIn: name, options: optionsNow() });
}

/** The address has a built-in entry, the capability and its parameters, and of an opened one nothing. */
function rememberAddress() {
  writeAddress(entry.builtIn ? [entry.builtIn, panel.item?.name ?? "", ...panel.values] : []);
}

/** Chooses a capability, and shows it with these values. */
function choose(item, values) {
  panel.show(entry, item, values);
  list.mark(item);
  tabs.show("capability");
  rememberAddress();
}

// What an entry is opened at: what shows most.
const FIRST = ["setaf", "setf", "cup"];

function firstOf({ items }) {
  const named = FIRST.map((name) => items.find((item) => item.name === name));
  return items.find((item) => item.findings.length) ?? named.find(Boolean) ?? items[0];
}

function showFacts() {
  const names = shortened(entry.names ?? "", MOST_NAMES);
  const [first, ...rest] = names.split("|");
  byId("names").replaceChildren(first, ...rest.map((name) => make("span", { class: "soft" }, ` ${name}`)));
  const findings = entry.findings.length + (entry.moreFindings ?? 0);
  byId("facts").textContent = [
    counted(entry.bytes.length, "byte"), `numbers of ${entry.isWide ? 32 : 16} bits`,
    counted(entry.items.length + entry.more, "capability", "capabilities"), counted(findings, "finding"),
  ].join(" · ");
  byId("tab-entry").textContent = findings ? `Findings (${findings})` : "Findings";
}

function showFindings() {
  const rows = entry.findings.map((finding) => findingRow(finding, choose));
  const all = rows.length ? make("ul", { class: "findings" }, ...rows) : make("p", { class: "soft" }, "No findings.");
  const more = entry.moreFindings ? [make("p", { class: "soft" }, counted(entry.moreFindings, "more finding"))] : [];
  byId("findings").replaceChildren(all, ...more);
}

/** Shows an entry, in the list, in its findings and beside the other one. */
function showEntry(opened) {
  entry = opened;
  showOpen(byId("built-in"), entry);
  showFacts();
  showFindings();
  list.show(entry);
  setOther(other ?? builtInEntry(BUILT_IN[1]));
}

/** Opens an entry, at a capability if one is named. */
function open(opened, name, values) {
  showEntry(opened);
  choose(entry.items.find((item) => item.name === name) ?? firstOf(entry), values);
}

function openBuiltIn(name, capability, values) {
  tellFaults();
  open(builtInEntry(name), capability, values);
}

/** Finds the findings anew, after a switch of theirs, and stays where it was. */
function lintAgain() {
  const { item, values } = panel;
  const place = entry.items.indexOf(item);
  showEntry(readEntry(entry.bytes, { ...entry, options: optionsNow() }));
  panel.show(entry, entry.items[place], values);
  list.mark(entry.items[place]);
}

/** Says why files are not opened. */
function tellFaults(...faults) {
  byId("fault").textContent = faults.join("\n");
}

/** The entry of a file, or the fault, which says why there is none. */
async function readFile(file) {
  // No character of the name acts on those beside it.
  const name = file.name.replaceAll(/\p{C}/gu, "?");
  try {
    return readEntry(await bytesOfFile(file), { file: name, options: optionsNow() });
  } catch (fault) {
    return { fault: `${name}: this cannot be read (${fault.name}); a directory is no entry` };
  }
}

/** Opens a file, and one beside it, or only one of the two. What was open stays if a file is no entry. */
async function openFiles(file, besideIt) {
  const [opened, beside] = await Promise.all([file, besideIt].map((each) => each && readFile(each)));
  tellFaults(...[opened?.fault, beside?.fault].filter(Boolean));
  if (opened && !opened.fault) open(opened);
  if (!beside || beside.fault) return;
  setOther(beside);
  tabs.show("compare");
}

function setOther(opened) {
  other = opened;
  compare.show(entry, other);
}

/** Opens what the address names, or else the first entry that came with the page. */
function openAddress(otherwise) {
  const named = readAddress();
  if (named && BUILT_IN.includes(named.entry)) openBuiltIn(named.entry, named.name, named.values);
  else if (otherwise) openBuiltIn(otherwise, "setaf", [201]);
}

/** Keys that hold wherever the focus is, but in a field. */
function onKey(event) {
  const isField = event.target.matches("input[type=text], input[type=search], select");
  if (isField || event.ctrlKey || event.altKey || event.metaKey) return;
  if (event.key === "/") {
    event.preventDefault();
    byId("search").focus();
  } else if (event.key === "," || event.key === ".") panel.step(event.key === "," ? -1 : 1);
  else if (event.key === "Escape") byId("download").open = false;
}

function watch() {
  byId("built-in").append(...entryOptions(BUILT_IN));
  byId("built-in").addEventListener("change", () => openBuiltIn(byId("built-in").value));
  for (const id of Object.keys(OPTIONS)) byId(id).addEventListener("change", lintAgain);
  watchPicker(byId("file"), openFiles);
  watchDrops(openFiles);
  watchDownload(() => entry);
  addEventListener("keydown", onKey);
  addEventListener("hashchange", () => openAddress());
  matchMedia("(prefers-color-scheme: dark)").addEventListener("change", () => panel.item && panel.show(entry, panel.item, panel.values));
}

// For the console, and for page/check.
globalThis.ti = { run, memoryInUse };

try {
  await start();
  byId("version").textContent = version();
  watch();
  openAddress(BUILT_IN[0]);
  document.body.classList.add("ready");
  performance.mark("ready");
} catch (fault) {
  byId("capability").replaceChildren(make("p", { class: "bad" }, `This browser cannot run the page: ${fault}`));
}
