// One capability: its text with what is wrong in it, its parameters, what its output does, and its trace.

import { counted, make } from "./dom.js";
import { sent, trace } from "./engine.js";
import { bytesOfText, longNameOf, numberOf, valueOf } from "./entry.js";
import { faultCard, findingCard } from "./finding.js";
import { ParameterFields } from "./fields.js";
import { drawText, markTokens } from "./text.js";
import { parametersOf, valueOfField } from "./parameters.js";
import { colorAt, isDrawable, paletteKind, picture, sentColors, showPalette, showSample, showScreen } from "./pictures.js";
import { effectOf, placeAfter } from "./sequences.js";
import { TraceView } from "./trace.js";

const KINDS = { flag: "boolean", number: "numeric", text: "string" };
const PALETTES = ["setaf", "setab", "setf", "setb"];
// The most bytes that are shown in hex.
const MOST_PAIRS = 64;

/** The trace of a text, by its bytes: its rows and their sums, how many more rows there are, or the fault. The sums come last. */
function traceOf(text, values) {
  const { rows, more, fault } = trace(text, values);
  const tokens = rows.filter((row) => row.token !== undefined);
  return { rows: tokens, totals: rows.find((row) => row.token === undefined), more: Math.max(more - 1, 0), fault };
}

/** What is shown of a capability. `onChange` is called when the user changes a parameter. */
export class CapabilityPanel {
  constructor(root, onChange) {
    this.root = root;
    this.onChange = onChange;
    this.trace = new TraceView((step) => this.markStep(step));
  }

  /** Shows a capability. `given` are the values of its first parameters. */
  show(entry, item, given = []) {
    Object.assign(this, { entry, item, values: [], parameters: [], pictures: {}, palette: undefined, elements: [] });
    if (!item) return this.root.replaceChildren(make("p", { class: "soft" }, "The entry has no capability."));
    this.kind = make("p", { class: "soft kind" });
    const longName = longNameOf(item);
    const head = [this.kind, make("h2", {}, item.name), ...(longName ? [make("p", { class: "soft mono" }, longName)] : [])];
    this.root.replaceChildren(...head);
    this.showKind();
    this.root.scrollTop = 0;
    if (item.kind === "text" && item.value !== undefined) this.showText(given);
    else this.root.append(make("p", { class: "text" }, valueOf(item)), ...this.cards());
    return undefined;
  }

  /** Shows the kind, and the limits of a trace: the bound is that for the texts that are given. */
  showKind({ depth, bound } = {}) {
    const { item } = this;
    const words = [`${KINDS[item.kind]}${item.own ? ", user-defined" : ""}`];
    if (bound !== undefined && item.value.includes("%")) {
      words.push(`writes at most ${counted(bound, "byte")}`, `has at most ${counted(depth, "value")} on its stack`);
    }
    this.kind.textContent = words.join(" · ");
  }

  cards() {
    const { findings, verdict } = this.item;
    const cards = findings.map(findingCard);
    const hasCard = findings.some((finding) => finding.finding === "malformed");
    if (verdict?.fault && !hasCard) cards.push(faultCard(verdict));
    return cards.length ? [make("section", { "aria-label": "Findings" }, ...cards)] : [];
  }

  showText(given) {
    this.sent = bytesOfText(this.item);
    const first = traceOf(this.sent, []);
    this.parameters = parametersOf(this.item.name, first.rows.map((row) => row.token));
    const valueAt = (parameter, place) => (given[place] === undefined ? undefined : valueOfField(parameter, String(given[place])));
    this.values = this.parameters.map((parameter, place) => valueAt(parameter, place) ?? parameter.first);
    this.text = make("div");
    this.work = make("div", { class: "work" });
    this.figure = make("section", { class: "figure", "aria-label": "What the output does" });
    this.root.append(this.text, ...this.cards(), this.work);
    if (this.parameters.length) {
      this.fields = new ParameterFields(this.item.name, this.parameters, this.values, (place, value) => this.setValue(place, value));
      this.work.append(this.fields.element);
    }
    this.work.append(this.figure);
    this.refresh(false);
  }

  setValue(place, value) {
    this.values[place] = value;
    this.refresh(true);
    this.onChange();
  }

  /** Runs the text over the values, and shows what came of it. */
  refresh(keepsStep) {
    const made = traceOf(this.sent, this.values);
    this.showKind(made.totals);
    const drawn = drawText(this.item.value, made.rows, this.places());
    this.elements = drawn.elements;
    this.rows = made.rows;
    const fault = made.fault && !this.item.verdict?.fault ? [make("p", { class: "bad mono", role: "status" }, made.fault)] : [];
    this.text.replaceChildren(drawn.box, ...this.bytes(), ...fault);
    this.showPicture();
    this.showTrace(made, keepsStep);
  }

  /** The bytes of a short text without parameters. */
  bytes() {
    const pairs = this.item.hex.match(/../g) ?? [];
    const isShown = !this.parameters.length && pairs.length > 0 && pairs.length <= MOST_PAIRS;
    return isShown ? [make("p", { class: "soft mono bytes" }, `${counted(pairs.length, "byte")}: ${pairs.join(" ")}`)] : [];
  }

  places() {
    const { findings, verdict } = this.item;
    const places = findings.flatMap((finding) => finding.places);
    return verdict?.fault ? [...places, verdict.place] : places;
  }

  showTrace(made, keepsStep) {
    const isPlain = !made.rows.some((row) => row.token.startsWith("%") && row.token !== "%%");
    this.isTraced = !made.fault && !isPlain;
    if (!this.isTraced) return;
    this.trace.show(made, keepsStep);
    if (this.trace.element.parentNode !== this.root) this.root.append(this.trace.element);
  }

  markStep(step) {
    markTokens(this.elements, this.rows, step);
  }

  /** A step of the trace, by so many. */
  step(by) {
    if (this.isTraced) this.trace.move(by);
  }

  // ---- the picture

  effectFor(values) {
    const bytes = sent(this.sent, values);
    return bytes && effectOf(bytes);
  }

  showPicture() {
    const kind = this.drawnKind();
    const isKey = this.item.name.startsWith("k");
    const element = kind && this.pictures[kind]?.element;
    if (element) {
      if (element.parentNode !== this.figure) this.figure.replaceChildren(make("h3", {}, "What it does"), element);
    } else {
      const words = "No picture: this page does not know what each byte of the output does.";
      this.figure.replaceChildren(...(this.parameters.length && !isKey ? [make("p", { class: "soft" }, words)] : []));
    }
  }

  made(kind) {
    this.pictures[kind] ??= picture(kind);
    return this.pictures[kind];
  }

  /** Draws what can be drawn, and returns its kind. */
  drawnKind() {
    const palette = PALETTES.includes(this.item.name) ? this.drawPalette() : undefined;
    if (palette) return palette;
    if (this.item.name.startsWith("k")) return undefined;
    const effect = this.effectFor(this.values);
    if (!effect) return undefined;
    if (effect.moves.length) return this.drawScreen(effect);
    const isRendition = Object.keys(effect.rendition).length > 0 || /^(sgr0?|rm|rit|op$)/.test(this.item.name);
    if (isRendition) showSample(this.made("sample"), effect.rendition);
    return isRendition ? "sample" : undefined;
  }

  drawPalette() {
    const colors = numberOf(this.entry, "colors", 8);
    this.palette ??= sentColors(colors, (number) => this.effectFor([number, ...this.values.slice(1)]));
    if (!this.palette.some(Boolean)) return undefined;
    const kind = paletteKind(colors);
    const isNew = !this.pictures[kind];
    const made = this.made(kind);
    if (isNew) made.canvas.addEventListener("click", (event) => this.chooseColor(colorAt(made.canvas, colors, event)));
    showPalette(made, this.palette, colors, this.values[0]);
    return kind;
  }

  chooseColor(color) {
    if (color === undefined) return;
    this.fields.set(0, color);
    this.setValue(0, color);
  }

  drawScreen({ moves }) {
    const screen = { rows: numberOf(this.entry, "lines", 24), columns: numberOf(this.entry, "cols", 80) };
    if (!isDrawable(screen)) return undefined;
    const isFixed = moves.some((move) => move.row !== undefined) && moves.some((move) => move.column !== undefined);
    const from = { row: Math.ceil(screen.rows / 2), column: Math.ceil(screen.columns / 2) };
    showScreen(this.made("screen"), { screen, from: isFixed ? undefined : from, to: placeAfter(moves, from, screen) });
    return "screen";
  }
}
