// The trace of a text, step by step: its tokens, the stack, the path that the tests choose, and the output.

import { counted, make } from "./dom.js";

const HEADINGS = ["place", "token", "stack", "wrote"];

/** A value on the stack, in words. */
function stackWord(value) {
  return typeof value === "object" ? `"${value.text}"${value.length > 16 ? `… (${value.length})` : ""}` : String(value);
}

function rowOf(row, choose) {
  const ran = row.run === "ran";
  const stack = ran ? row.stack.map(stackWord).join(" ") : "skipped";
  const cells = [String(row.place), row.token, stack, row.wrote].map((text) => make("td", {}, text));
  return make("tr", { class: ran ? undefined : "skipped", onclick: choose }, ...cells);
}

/** The view of a trace. `onStep` is called with the index of the row at which it stands. */
export class TraceView {
  constructor(onStep) {
    this.onStep = onStep;
    this.rows = [];
    this.step = Infinity;
    this.body = make("tbody");
    const follow = () => this.follow(Number(this.slider.value));
    this.slider = make("input", { type: "range", min: "0", "aria-label": "Step of the trace", oninput: follow });
    this.now = make("div", { class: "now", role: "status" });
    this.element = make("section", { class: "trace" }, make("h3", {}, "Step by step"), this.controls(), this.tables());
  }

  controls() {
    const button = (label, sign, by) => make("button", { type: "button", "aria-label": label, onclick: () => this.move(by) }, sign);
    return make(
      "div", { class: "steps" }, button("First step", "«", -Infinity), button("Step back", "‹", -1), this.slider,
      button("Step forward", "›", 1), button("Last step", "»", Infinity),
    );
  }

  tables() {
    const head = make("thead", {}, make("tr", {}, ...HEADINGS.map((word) => make("th", { scope: "col" }, word))));
    this.scroll = make("div", { class: "rows", tabindex: "0", role: "region", "aria-label": "Tokens" }, make("table", {}, head, this.body));
    return make("div", { class: "side-by-side" }, this.scroll, this.now);
  }

  /** Shows another trace. It stays at its step if `keepsStep` holds, and else goes to the last one. */
  show({ rows, totals, more }, keepsStep) {
    this.rows = rows;
    this.totals = totals;
    this.more = more;
    this.slider.max = String(Math.max(rows.length - 1, 0));
    this.body.replaceChildren(...rows.map((row, index) => rowOf(row, () => this.follow(index))));
    if (more) this.body.append(make("tr", {}, make("td", { colspan: "4", class: "soft" }, `${counted(more, "more token")}`)));
    this.goTo(keepsStep && this.step < rows.length - 1 ? this.step : rows.length - 1);
  }

  move(by) {
    this.follow(Math.min(Math.max(this.step + by, 0), this.rows.length - 1));
  }

  /** Goes to a step that the user chose, and shows its row. */
  follow(step) {
    this.goTo(step);
    this.body.children[step]?.scrollIntoView({ block: "nearest" });
  }

  goTo(step) {
    this.body.children[this.step]?.classList.remove("at");
    this.step = step;
    this.slider.value = String(step);
    const row = this.body.children[step];
    row?.classList.add("at");
    if (row) this.keepInView(row);
    this.now.replaceChildren(...this.state());
    this.onStep(step);
  }

  /** Scrolls the rows alone, not the page. */
  keepInView(row) {
    const [top, bottom] = [row.offsetTop - 28, row.offsetTop + row.offsetHeight];
    if (top < this.scroll.scrollTop) this.scroll.scrollTop = top;
    else if (bottom > this.scroll.scrollTop + this.scroll.clientHeight) this.scroll.scrollTop = bottom - this.scroll.clientHeight;
  }

  /** The state after the step: where it is, the stack with its top first, and the output so far. */
  state() {
    const row = this.rows[this.step];
    if (!row) return [];
    const values = row.stack.toReversed().map((value) => make("li", {}, stackWord(value)));
    const stack = values.length ? values : [make("li", { class: "soft" }, "empty")];
    const written = make("b", {}, this.writtenBy(0, this.step + 1));
    const rest = make("span", { class: "skipped" }, this.writtenBy(this.step + 1));
    return [
      make("p", { class: "soft" }, `Step ${this.step + 1} of ${this.rows.length}${row.run === "ran" ? "" : ", skipped"}`),
      make("h4", {}, "Stack, top first"), make("ol", { class: "stack" }, ...stack),
      make("h4", {}, "Output"), make("div", { class: "text output" }, written, rest),
      make("p", { class: "soft" }, this.sums()),
    ];
  }

  /** What some of the rows wrote. */
  writtenBy(start, end) {
    return this.rows.slice(start, end).map((row) => row.wrote).join("");
  }

  sums() {
    const { written, ran, passed, height, depth, bound } = this.totals ?? {};
    if (written === undefined) return "";
    const skipped = passed ? `, ${passed} skipped` : "";
    const sizes = `${counted(written, "byte")} of at most ${bound} written; ${height} of at most ${depth} on the stack.`;
    return `${counted(ran, "token")} ran${skipped}. ${sizes}`;
  }
}
