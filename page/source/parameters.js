// The parameters of a text: what each one means by terminfo(5), and the range of its slider.

// What a parameter can be: the greatest value of its slider, and the value at first. A field takes any number.
const ROLES = {
  row: { most: 63, first: 4 },
  column: { most: 159, first: 9 },
  color: { most: 255, first: 1 },
  pair: { most: 63, first: 1 },
  level: { most: 1000, first: 500 },
  count: { most: 99, first: 3 },
  character: { most: 255, first: 65 },
  flag: { most: 1, first: 0 },
  number: { most: 255, first: 1 },
  text: { first: "text" },
};

// The parameters of texts, each with its role before a colon if the two differ.
const MEANINGS = {
  cup: "row column", mrcup: "row column", hpa: "column", vpa: "row", csr: "row:first-row row:last-row", wind: "row row column column",
  setaf: "color", setab: "color", setf: "color", setb: "color", Setulc: "color", scp: "pair",
  initc: "color level:red level:green level:blue", cuu: "count", cud: "count", cub: "count", cuf: "count", ich: "count", dch: "count",
  il: "count", dl: "count", ech: "count", indn: "count", rin: "count", rep: "character count", tsl: "column",
  sgr: "flag:standout flag:underline flag:reverse flag:blink flag:dim flag:bold flag:invisible flag:protected flag:line-drawing",
  pfkey: "number:key text", pfloc: "number:key text", pfx: "number:key text", pln: "number:key text", Ss: "number:style",
  Ms: "text:selection text:data", Cs: "text:color", TS: "text:title", fsl: "",
};

/** The tokens that take the value just pushed as a text. */
const TAKES_TEXT = /^%(:?[-+# 0-9.]*s|l)$/;

function greatestOf(tokens) {
  return Math.max(0, ...tokens.map((token) => (/^%p[1-9]$/.test(token) ? Number(token[2]) : 0)));
}

function isText(tokens, number) {
  return tokens.some((token, place) => token === `%p${number}` && TAKES_TEXT.test(tokens[place + 1] ?? ""));
}

/** The parameters that the tokens of a text name, each with a label, a role and that role's range. */
export function parametersOf(name, tokens) {
  const meanings = (Object.hasOwn(MEANINGS, name) ? MEANINGS[name] : "").split(" ");
  return Array.from({ length: greatestOf(tokens) }, (_, place) => {
    const [role, label = role] = (meanings[place] || "number:").split(":");
    const found = isText(tokens, place + 1) ? "text" : role;
    return { label: label.replace("-", " "), role: found, ...ROLES[found] };
  });
}

/** The value of what was typed for a parameter: a text, or a number of 32 bits; undefined if it is none. */
export function valueOfField({ role }, typed) {
  if (role === "text") return typed.replaceAll("\0", "");
  const number = /^-?\d+$/.test(typed) ? Number(typed) : NaN;
  return number === (number | 0) ? number | 0 : undefined;
}
