// Pictures of what an output does: a palette, a screen with its cursor, a sample of text. All are drawn on a canvas, from numbers.

import { nameOf, shadeOf } from "./colors.js";
import { counted, make } from "./dom.js";

// The size of each picture, in pixels of the style.
const SIZES = { palette: [432, 176], few: [432, 80], row: [432, 40], screen: [432, 216], sample: [432, 64] };
const MONOSPACE = "ui-monospace, 'DejaVu Sans Mono', Menlo, Consolas, monospace";
const ATTRIBUTES = ["bold", "dim", "italic", "underline", "blink", "reverse", "invisible", "struck"];
// The most colors that a palette shows.
const MOST_COLORS = 256;
// The most rows and columns of a screen that can be drawn.
const MOST_CELLS = 1000;

let figures = 0;

/** The colors of the style that pictures have too. */
function themeNow() {
  const style = getComputedStyle(document.documentElement);
  return Object.fromEntries(["ink", "line", "pane", "hot"].map((name) => [name, style.getPropertyValue(`--${name}`)]));
}

/**
 * A picture of a kind, with its caption, which is its name for those who cannot see it. `show` takes a function that draws, and the
 * words of the caption.
 */
export function picture(kind) {
  const id = `picture-${++figures}`;
  const canvas = make("canvas", { class: kind, role: "img", "aria-labelledby": id });
  const caption = make("figcaption", { id, class: "soft" });
  const element = make("figure", {}, canvas, caption);
  const [width, height] = SIZES[kind];
  const show = (draw, words) => {
    const scale = window.devicePixelRatio || 1;
    [canvas.width, canvas.height] = [width * scale, height * scale];
    const context = canvas.getContext("2d");
    context.scale(scale, scale);
    draw(context, themeNow(), { width, height });
    caption.textContent = words;
  };
  return { element, canvas, show };
}

// ---- a palette

/** The kind of picture that a palette of so many colors is. */
export const paletteKind = (colors) => (colors > 16 ? "palette" : colors > 8 ? "few" : "row");

/** The cells of a palette: as rows of eight up to 16 colors, and of 256 as 16 colors, a cube in six rows, and the greys. */
function cellsOf(colors) {
  const [width] = SIZES.palette;
  const rows = colors <= 16 ? [8, 8] : colors === 256 ? [16, 36, 36, 36, 36, 36, 36, 24] : Array(Math.ceil(colors / 32)).fill(32);
  const height = colors <= 16 ? 40 : 22;
  const cells = [];
  rows.forEach((count, row) => {
    for (let place = 0; place < count && cells.length < colors; place++) {
      cells.push({ x: (place * width) / count, y: row * height, width: width / count, height });
    }
  });
  return cells;
}

/** The color at a place of a palette, or undefined. */
export function colorAt(canvas, colors, event) {
  const box = canvas.getBoundingClientRect();
  const scale = SIZES.palette[0] / box.width;
  const [x, y] = [(event.clientX - box.left) * scale, (event.clientY - box.top) * scale];
  const isIn = (cell) => x >= cell.x && x < cell.x + cell.width && y >= cell.y && y < cell.y + cell.height;
  const found = cellsOf(shownColors(colors)).findIndex(isIn);
  return found < 0 ? undefined : found;
}

const shownColors = (colors) => Math.min(Math.max(colors, 0), MOST_COLORS);

function hatch(context, cell, theme) {
  context.save();
  context.beginPath();
  context.rect(cell.x + 1, cell.y + 1, cell.width - 2, cell.height - 2);
  context.clip();
  context.strokeStyle = theme.line;
  context.beginPath();
  for (let offset = -cell.height; offset < cell.width; offset += 5) {
    context.moveTo(cell.x + offset, cell.y + cell.height);
    context.lineTo(cell.x + offset + cell.height, cell.y);
  }
  context.stroke();
  context.restore();
}

function drawCell(context, cell, color, theme) {
  if (!color) return hatch(context, cell, theme);
  context.fillStyle = shadeOf(color);
  context.beginPath();
  context.roundRect(cell.x + 1, cell.y + 1, cell.width - 2, cell.height - 2, 2);
  context.fill();
  context.strokeStyle = "rgba(128, 128, 128, .45)";
  context.lineWidth = 1;
  context.stroke();
  return undefined;
}

function drawChosen(context, cell, theme) {
  context.lineWidth = 2.5;
  context.strokeStyle = theme.pane;
  context.strokeRect(cell.x - 0.5, cell.y - 0.5, cell.width + 1, cell.height + 1);
  context.strokeStyle = theme.hot;
  context.strokeRect(cell.x + 1, cell.y + 1, cell.width - 2, cell.height - 2);
}

/** Shows the palette: the color that each number sends, or undefined, and which number is chosen. */
export function showPalette(made, sent, colors, chosen) {
  const cells = cellsOf(sent.length);
  const unknown = sent.filter((color) => !color).length;
  const words = [
    colors > sent.length ? `The first ${sent.length} of ${counted(colors, "color")}` : counted(colors, "color"),
    unknown ? `${unknown} hatched, whose output this page does not know` : undefined,
    sent[chosen] && `chosen: ${chosen}`,
  ];
  made.show((context, theme) => {
    cells.forEach((cell, place) => drawCell(context, cell, sent[place], theme));
    if (cells[chosen]) drawChosen(context, cells[chosen], theme);
  }, `${words.filter(Boolean).join("; ")}. The shades are those of xterm.`);
}

/** The colors that numbers send, from a call that returns what each does. */
export function sentColors(colors, effectFor) {
  return Array.from({ length: shownColors(colors) }, (_, number) => {
    const effect = effectFor(number);
    const { fore, back } = effect?.rendition ?? {};
    return effect && !effect.moves.length && !(fore && back) ? (fore ?? back) : undefined;
  });
}

// ---- a screen

function drawGrid(context, screen, box, theme) {
  const [cell, line] = [box.width / screen.columns, box.height / screen.rows];
  context.fillStyle = theme.pane;
  context.fillRect(0, 0, box.width, box.height);
  context.strokeStyle = theme.line;
  context.beginPath();
  for (let column = 10; column < screen.columns; column += 10) {
    context.moveTo(column * cell, 0);
    context.lineTo(column * cell, box.height);
  }
  for (let row = 5; row < screen.rows; row += 5) {
    context.moveTo(0, row * line);
    context.lineTo(box.width, row * line);
  }
  context.stroke();
}

function drawScreen(context, theme, box, { screen, from, to }) {
  const [cell, line] = [box.width / screen.columns, box.height / screen.rows];
  const corner = (place) => [(place.column - 1) * cell, (place.row - 1) * line];
  drawGrid(context, screen, box, theme);
  context.strokeStyle = context.fillStyle = theme.hot;
  context.lineWidth = 1.5;
  if (from) {
    const [[x, y], [toX, toY]] = [corner(from), corner(to)];
    context.strokeRect(x + 0.75, y + 0.75, cell - 1.5, line - 1.5);
    context.beginPath();
    context.moveTo(x + cell / 2, y + line / 2);
    context.lineTo(toX + cell / 2, toY + line / 2);
    context.stroke();
  }
  context.fillRect(...corner(to), Math.max(cell, 3), line);
}

/** Whether a screen of this size can be drawn. */
export function isDrawable({ rows, columns }) {
  return rows > 0 && columns > 0 && rows <= MOST_CELLS && columns <= MOST_CELLS;
}

/** Shows where the cursor is, and where it was if that matters. */
export function showScreen(made, { screen, from, to }) {
  const isOn = to.row <= screen.rows && to.column <= screen.columns;
  const size = `a screen of ${counted(screen.rows, "row")} and ${counted(screen.columns, "column")}`;
  const start = from ? `From row ${from.row}, column ${from.column} to` : "The cursor goes to";
  made.show(
    (context, theme, box) => drawScreen(context, theme, box, { screen, from, to }),
    `${start} row ${to.row}, column ${to.column} ${isOn ? "of" : "which is not on"} ${size}, counted from 1.`,
  );
}

// ---- a sample

function lineThrough(context, width, y) {
  context.fillRect(16, y, width, 1.5);
}

function drawSample(context, theme, box, rendition) {
  const plain = { fore: theme.ink, back: theme.pane };
  let [fore, back] = [rendition.fore ? shadeOf(rendition.fore) : plain.fore, rendition.back ? shadeOf(rendition.back) : plain.back];
  if (rendition.reverse) [fore, back] = [back, fore];
  context.fillStyle = plain.back;
  context.fillRect(0, 0, box.width, box.height);
  context.font = `${rendition.italic ? "italic " : ""}${rendition.bold ? "bold " : ""}20px ${MONOSPACE}`;
  const text = "The quick brown fox";
  const width = context.measureText(text).width;
  context.fillStyle = back;
  context.fillRect(10, 14, width + 12, 36);
  if (rendition.invisible) return;
  context.globalAlpha = rendition.dim ? 0.55 : 1;
  context.fillStyle = fore;
  context.fillText(text, 16, 39);
  if (rendition.underline) lineThrough(context, width, 43);
  if (rendition.struck) lineThrough(context, width, 32);
}

/** What a rendition is, in words. */
function wordsOf(rendition) {
  const words = ATTRIBUTES.filter((name) => rendition[name]);
  if (rendition.fore) words.push(`text in ${nameOf(rendition.fore)}`);
  if (rendition.back) words.push(`on ${nameOf(rendition.back)}`);
  return words.length ? words.join(", ") : "plain text";
}

/** Shows text as an output leaves it. */
export function showSample(made, rendition) {
  const words = wordsOf(rendition);
  made.show((context, theme, box) => drawSample(context, theme, box, rendition), `${words[0].toUpperCase()}${words.slice(1)}.`);
}
