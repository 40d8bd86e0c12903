// The colors that a picture has. They are those of xterm, unless somebody changed them.

const BASE = [
  [0, 0, 0], [205, 0, 0], [0, 205, 0], [205, 205, 0], [0, 0, 238], [205, 0, 205], [0, 205, 205], [229, 229, 229],
  [127, 127, 127], [255, 0, 0], [0, 255, 0], [255, 255, 0], [92, 92, 255], [255, 0, 255], [0, 255, 255], [255, 255, 255],
];

/** Red, green and blue of a color of the palette of 256: 16 colors, a cube of 216, and 24 greys. */
function partsOf(index) {
  if (index < 16) return BASE[index];
  if (index > 231) return Array(3).fill(8 + 10 * (index - 232));
  const level = (step) => (step ? 55 + 40 * step : 0);
  const place = index - 16;
  return [level(Math.floor(place / 36)), level(Math.floor(place / 6) % 6), level(place % 6)];
}

/** A color as a canvas takes it. */
export function shadeOf({ index, parts }) {
  return `rgb(${(parts ?? partsOf(index)).join(",")})`;
}

/** What a color is called. */
export function nameOf({ index, parts }) {
  return parts ? `red ${parts[0]}, green ${parts[1]}, blue ${parts[2]}` : `color ${index}`;
}
