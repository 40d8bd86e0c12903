// An entry that is read: its capabilities, and what is wrong with each.

import { LONG_NAMES } from "./data.js";
import { check, faultOfFile, lint, show } from "./engine.js";

/** The most bytes that a file may have, one more than any entry. */
export const MOST_BYTES = 32769;

/** Whether a finding is about a capability. */
function isAbout(subject, item) {
  return subject.name === item.name && (subject.text === undefined || subject.text === item.value);
}

/** Gives each text its verdict. Verdicts come in the order of the texts that have a value. */
function addVerdicts(items, verdicts) {
  const texts = items.filter((item) => item.kind === "text" && item.value !== undefined);
  texts.forEach((item, place) => {
    if (verdicts[place]?.name === item.name) item.verdict = verdicts[place];
  });
}

/** The capabilities by their names, of which an entry can have one twice. */
function byNames(items) {
  const named = new Map();
  for (const item of items) {
    if (!named.has(item.name)) named.set(item.name, []);
    named.get(item.name).push(item);
  }
  return named;
}

/** Gives each capability what is wrong with it, and each finding the capabilities that it is about. */
function addFindings(items, findings) {
  const named = byNames(items);
  for (const finding of findings) {
    const about = finding.subjects.flatMap((subject) => (named.get(subject.name) ?? []).filter((item) => isAbout(subject, item)));
    finding.items = [...new Set(about)];
    for (const item of finding.items) item.findings.push(finding);
  }
}

/** The bytes of a text. */
export function bytesOfText({ hex }) {
  return Uint8Array.from(hex.match(/../g) ?? [], (pair) => Number.parseInt(pair, 16));
}

/**
 * Reads an entry. `builtIn` is its name if it came with the page, `file` that of its file if it was opened, and `options` are those of
 * `lint`. If it is refused, there is only the fault.
 */
export function readEntry(bytes, { builtIn, file, options = [] }) {
  const shown = show(bytes);
  if (shown.fault) return { fault: file === undefined ? shown.fault : faultOfFile(file, bytes) || shown.fault };
  const heads = shown.rows.filter((row) => row.name === undefined);
  const items = shown.rows.filter((row) => row.name !== undefined).map((row) => ({ ...row, findings: [] }));
  const found = lint(bytes, options);
  addVerdicts(items, check(bytes).rows);
  addFindings(items, found.rows);
  return {
    bytes,
    builtIn,
    file,
    items,
    more: shown.more,
    names: heads.find((row) => row.kind === "names")?.value ?? "",
    isWide: heads.some((row) => row.kind === "format" && row.value === "wide"),
    findings: found.rows,
    moreFindings: found.more,
  };
}

/** The number of an entry by its name, or another if there is none. */
export function numberOf(entry, name, otherwise) {
  const item = entry.items.find((candidate) => candidate.name === name && candidate.kind === "number");
  return Number.isInteger(item?.value) ? item.value : otherwise;
}

/** The long name of a capability by terminfo(5), or nothing if the entry names it itself. */
export function longNameOf(item) {
  return !item.own && Object.hasOwn(LONG_NAMES, item.name) ? LONG_NAMES[item.name] : "";
}

/** What a capability has, in words. */
export function valueOf(item) {
  if (item.state !== undefined) return item.state;
  return item.value === true ? "yes" : String(item.value);
}
