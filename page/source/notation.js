// Texts in the notation of terminfo(5), such as `\E[H`.

// The most bytes of a text that are drawn. A capability has at most 32,767.
export const MOST_UNITS = 4000;

/** The parts of a text in the notation that each spell one byte. */
export function unitsOf(text) {
  return text.match(/\\[0-7]{3}|\\[^]|\^[^]|[^]/g) ?? [];
}

/** The start of a text, with a mark if it goes on. */
export function shortened(text, most) {
  return text.length > most ? `${text.slice(0, most)}…` : text;
}

/** What kind of token this is, as a class of the style. */
export function classOf(token) {
  if (!token.startsWith("%") || token === "%%") return "literal";
  const last = token.at(-1);
  if ("?te;".includes(last) && token.length === 2) return "control";
  if (/^%(p.|g.|\{.*\}|'.*')$/s.test(token)) return "push";
  if (/^%P.$/.test(token) || token === "%i") return "store";
  return /[dosxXc]$/.test(token) ? "print" : "operator";
}
