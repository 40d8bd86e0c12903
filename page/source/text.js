// A text of an entry, drawn with its tokens, what is wrong in it, and how far a trace has come.

import { counted, make } from "./dom.js";
import { MOST_UNITS, classOf, unitsOf } from "./notation.js";

/** The parts of a text that are drawn as one: the tokens of its trace, or the whole text if there is none. */
function partsOf(rows, length) {
  if (!rows.length) return [{ start: 0, end: length }];
  return rows.map((row, token) => ({ token, start: row.place, end: Math.min(rows[token + 1]?.place ?? length, length) }));
}

/** The bytes of a part, with those underlined at which something is wrong. */
function drawUnits(units, { start, end }, wrong) {
  const drawn = [];
  let plain = "";
  for (let place = start; place < end; place++) {
    if (!wrong.has(place)) {
      plain += units[place];
      continue;
    }
    drawn.push(plain, make("u", {}, units[place]));
    plain = "";
  }
  return [...drawn, plain];
}

/**
 * Draws a text. `rows` is its trace, which can be empty; `places` are those at which something is wrong. The elements of its
 * tokens are returned too, so that they can be marked.
 */
export function drawText(value, rows, places) {
  const units = unitsOf(value);
  const length = Math.min(units.length, MOST_UNITS);
  const wrong = new Set(places);
  const box = make("div", { class: "text" });
  const elements = [];
  for (const part of partsOf(rows, length)) {
    if (part.start >= length) break;
    const kind = part.token === undefined ? "literal" : classOf(rows[part.token].token);
    const element = make("span", { class: kind }, ...drawUnits(units, part, wrong));
    if (part.token !== undefined) elements.push(element);
    box.append(element);
  }
  const more = units.length - length;
  if (more) box.append(make("span", { class: "soft" }, ` … ${counted(more, "more byte")}`));
  if (!units.length) box.append(make("span", { class: "soft" }, "It is empty."));
  return { box, elements };
}

/** Marks the tokens of a text: those that a run skips, and the one at a step. */
export function markTokens(elements, rows, step) {
  elements.forEach((element, token) => {
    element.classList.toggle("skipped", rows[token].run !== "ran");
    element.classList.toggle("at", token === step);
  });
}
