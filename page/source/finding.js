// What is wrong, in words: the finding, its meaning here, and what the manual says of it.

import { ADVICE } from "./data.js";
import { make } from "./dom.js";
import { shortened } from "./notation.js";
import { drawText } from "./text.js";

// The most characters of a text that is listed with its finding, and of a name; and the most names of one finding.
const MOST_LISTED = 300;
const MOST_NAME = 64;
const MOST_SUBJECTS = 8;

/** What the manual says of a word, by paragraphs; nothing if it has none. */
function adviceOn(word) {
  const advice = Object.hasOwn(ADVICE, word) ? ADVICE[word] : "";
  return advice ? [make("p", { class: "advice" }, advice)] : [];
}

/** A card on one finding, with what to do. */
export function findingCard({ finding, meaning, fix }) {
  const remedy = fix ? make("p", { class: "fix" }, `do: ${fix}`) : undefined;
  return make("div", { class: "card" }, make("p", {}, make("b", {}, finding), " ", meaning), remedy, ...adviceOn(finding));
}

/** A card on a text that is no valid output string. */
export function faultCard({ fault, place }) {
  const words = `from byte ${place} on this is no valid output string: programs refuse it or send a part, unless it describes input.`;
  return make("div", { class: "card mild" }, make("p", {}, make("b", {}, fault), " ", words), ...adviceOn(fault));
}

/** The text that a finding is about, if it has places in it. */
function textOf(item, { places }) {
  const isShown = places.length > 0 && item?.kind === "text" && item.value.length <= MOST_LISTED;
  return isShown ? drawText(item.value, [], places).box : undefined;
}

/** A row on a finding, which leads to its capabilities. */
export function findingRow(finding, choose) {
  const { items } = finding;
  const lead = (item) => make("button", { type: "button", class: "link", onclick: () => choose(item) }, shortened(item.name, MOST_NAME));
  const subjects = items.length ? items.slice(0, MOST_SUBJECTS).map(lead) : [make("span", { class: "soft" }, "the entry as a whole")];
  return make("li", {}, make("div", { class: "subjects" }, ...subjects), textOf(items[0], finding), findingCard(finding));
}
