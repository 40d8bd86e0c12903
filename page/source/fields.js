// The fields of a text's parameters: a slider and a field for each number, a field for each text, a switch for each attribute.

import { make } from "./dom.js";
import { valueOfField } from "./parameters.js";

function sliderOf(parameter, id, label, onInput) {
  const slider = make("input", { type: "range", id: `${id}-slider`, min: "0", max: String(parameter.most), "aria-label": label });
  slider.addEventListener("input", () => onInput(Number(slider.value)));
  return slider;
}

/**
 * The fields of the parameters of a capability, by its name. `onValue` is called with the place of a parameter and its new value, and
 * not for what the parameter can't be.
 */
export class ParameterFields {
  constructor(name, parameters, values, onValue) {
    this.name = name;
    this.rows = parameters.map((parameter, place) => this.row(parameter, place, values[place], onValue));
    const all = this.rows.flatMap(({ head, slider, field }) => [head, slider, field]);
    const heading = make("h3", {}, "Parameters");
    this.fault = make("p", { class: "bad mono", role: "alert" });
    const fields = make("div", { class: "fields" }, ...all);
    this.element = make("section", { class: "parameters", "aria-label": "Parameters" }, heading, fields, this.fault);
  }

  row(parameter, place, value, onValue) {
    const id = `parameter-${place + 1}`;
    const head = make("label", { for: id }, make("code", {}, `%p${place + 1}`), ` ${parameter.label}`);
    if (parameter.role === "flag") return this.switchRow(head, id, value, (typed) => onValue(place, typed));
    const label = `%p${place + 1}, ${parameter.label}`;
    const kind = parameter.role === "text" ? "mono wide" : "mono";
    const field = make("input", { type: "text", id, class: kind, spellcheck: "false", autocomplete: "off" });
    const slider = parameter.role === "text" ? undefined : sliderOf(parameter, id, label, (number) => {
      field.value = String(number);
      onValue(place, number);
    });
    field.addEventListener("input", () => {
      const typed = valueOfField(parameter, field.value);
      this.showFaults();
      if (typed === undefined) return;
      if (slider) slider.value = String(typed);
      onValue(place, typed);
    });
    slider?.addEventListener("input", () => this.showFaults());
    const row = { head, slider, field, parameter };
    this.fill(row, value);
    return row;
  }

  switchRow(head, id, value, onTyped) {
    const field = make("input", { type: "checkbox", id, class: "wide" });
    field.addEventListener("change", () => onTyped(field.checked ? 1 : 0));
    field.checked = value !== 0;
    return { head, field };
  }

  /** Marks the fields that no number fits, and says of the first what `ti get` would. */
  showFaults() {
    const wrong = this.rows.map(({ field, parameter }) => parameter !== undefined && valueOfField(parameter, field.value) === undefined);
    this.rows.forEach(({ field }, place) => field.setAttribute("aria-invalid", String(wrong[place])));
    const first = wrong.indexOf(true);
    this.fault.textContent = first < 0 ? "" : `parameter ${first + 1} of ${this.name}: no 32-bit number`;
  }

  fill({ slider, field }, value) {
    field.value = String(value);
    if (slider) slider.value = String(value);
  }

  /** Sets a field to a value that was chosen elsewhere. */
  set(place, value) {
    this.fill(this.rows[place], value);
    this.showFaults();
  }
}
