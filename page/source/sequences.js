// What the bytes of an output do to a terminal of ECMA-48, if this page knows it of every byte.

// What a parameter of `\E[..m` sets, but for colors.
const SETS = {
  0: "reset", 1: "bold", 2: "dim", 3: "italic", 4: "underline", 5: "blink", 7: "reverse", 8: "invisible", 9: "struck", 10: "none",
  21: "underline", 22: "-bold -dim", 23: "-italic", 24: "-underline", 25: "-blink", 27: "-reverse", 28: "-invisible", 29: "-struck",
};

/** The color after `38` or `48`: of the palette, or of red, green and blue. It takes its parameters off the list. */
function extendedColor(codes) {
  const form = codes.shift();
  if (form === 5 && codes[0] < 256) return { index: codes.shift() };
  const parts = form === 2 ? codes.splice(0, 3) : [];
  return parts.length === 3 && parts.every((part) => part < 256) ? { parts } : undefined;
}

/** What a color code sets, or undefined if it is none. */
function colorOf(code, codes) {
  const side = (code >= 40 && code < 50) || code >= 100 ? "back" : "fore";
  if (code === 38 || code === 48) {
    const color = extendedColor(codes);
    return color && { side, color };
  }
  if (code === 39 || code === 49) return { side };
  const first = [30, 40, 90, 100].find((start) => code >= start && code < start + 8);
  return first === undefined ? undefined : { side, color: { index: code - first + (first >= 90 ? 8 : 0) } };
}

/** The codes of the parameters of `\E[..m`. Those with colons have the form of ITU T.416, in which a color space may be left out. */
function codesOf(parameters) {
  return parameters.split(";").flatMap((group) => {
    const parts = group.split(":").map(Number);
    if (parts.length === 1) return parts;
    if (parts[0] === 4) return [parts[1] ? 4 : 24];
    return parts[1] === 2 ? [parts[0], 2, ...parts.slice(-3)] : parts;
  });
}

/** Sets attributes by the words of `SETS`. */
function setWords(rendition, words) {
  for (const word of words.split(" ")) {
    if (word === "reset") for (const name of Object.keys(rendition)) delete rendition[name];
    else if (word.startsWith("-")) delete rendition[word.slice(1)];
    else if (word !== "none") rendition[word] = true;
  }
}

/** Adds to a rendition what `\E[..m` sets. Whether all of it is known. */
function addRendition(rendition, parameters) {
  const codes = codesOf(parameters);
  while (codes.length) {
    const code = codes.shift();
    if (Object.hasOwn(SETS, code)) {
      setWords(rendition, SETS[code]);
      continue;
    }
    const found = colorOf(code, codes);
    if (!found) return false;
    if (found.color) rendition[found.side] = found.color;
    else delete rendition[found.side];
  }
  return true;
}

const count = (text) => Number(text || 1) || 1;

// What moves the cursor, by the final byte of a control sequence.
const MOVES = {
  A: (n) => ({ rows: -n }), B: (n) => ({ rows: n }), C: (n) => ({ columns: n }), D: (n) => ({ columns: -n }),
  E: (n) => ({ rows: n, column: 1 }), F: (n) => ({ rows: -n, column: 1 }), G: (n) => ({ column: n }), "`": (n) => ({ column: n }),
  a: (n) => ({ columns: n }), d: (n) => ({ row: n }), e: (n) => ({ rows: n }),
};

// The forms of output that are known, each with what is made of it: a move, a change of the rendition, or nothing.
const FORMS = [
  [/^\x1b\[([\d;:]*)m/, (rendition, found) => addRendition(rendition, found[1]) && {}],
  [/^\x1b\[(\d*)(?:;(\d*))?[Hf]/, (_, found) => ({ row: count(found[1]), column: count(found[2]) })],
  [/^\x1b\[(\d*)([A-G`ade])/, (_, found) => MOVES[found[2]](count(found[1]))],
  [/^\r/, () => ({ column: 1 })],
  [/^\n/, () => ({ rows: 1 })],
  [/^\x08/, () => ({ columns: -1 })],
  [/^(?:\x0f|\x1b\(B)/, () => ({})],
];

/** The next form at the front of a text: how long it is, and its move. */
function nextForm(text, rendition) {
  for (const [form, act] of FORMS) {
    const found = form.exec(text);
    if (!found) continue;
    const move = act(rendition, found);
    return move && { length: found[0].length, move };
  }
  return undefined;
}

/**
 * What an output does: the moves of the cursor, and the rendition that it leaves. It is undefined if this page does not know what
 * each byte does, or if there is none.
 */
export function effectOf(bytes) {
  let text = String.fromCharCode(...bytes.subarray(0, 4096));
  if (!bytes.length || bytes.length > 4096) return undefined;
  const [rendition, moves] = [{}, []];
  while (text) {
    const form = nextForm(text, rendition);
    if (!form) return undefined;
    if (Object.keys(form.move).length) moves.push(form.move);
    text = text.slice(form.length);
  }
  return { rendition, moves };
}

const limited = (value, most) => Math.min(Math.max(value, 1), most);

/** Where moves lead from a place. A move by a count stops at the edge; one to a place is as it says. */
export function placeAfter(moves, from, screen) {
  let { row, column } = from;
  for (const move of moves) {
    row = move.row ?? (move.rows === undefined ? row : limited(row + move.rows, screen.rows));
    column = move.column ?? (move.columns === undefined ? column : limited(column + move.columns, screen.columns));
  }
  return { row, column };
}
