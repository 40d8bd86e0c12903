// The objects of an array of JSON, of which no more are read than a page can draw. An entry of 32 KB can make 400 MB of them.

/** The most rows that are drawn of anything. */
export const MOST_ROWS = 2000;
// The place in the array up to which objects are read.
const MOST_BYTES = 16 << 20;

const [QUOTE, BACKSLASH, OPEN, CLOSE] = ['"', "\\", "{", "}"].map((character) => character.charCodeAt(0));

/** The place after the string that starts here. */
function afterString(bytes, start) {
  let place = start + 1;
  while (place < bytes.length && bytes[place] !== QUOTE) place += bytes[place] === BACKSLASH ? 2 : 1;
  return place + 1;
}

/** The places after `{` and `}`, by way of `visit`, which has the depth too. Those in strings don't count. */
function visitBraces(bytes, visit) {
  let depth = 0;
  for (let place = 0; place < bytes.length; ) {
    const byte = bytes[place];
    if (byte === QUOTE) {
      place = afterString(bytes, place);
      continue;
    }
    if (byte === OPEN) visit(place, ++depth, true);
    if (byte === CLOSE) visit(place + 1, depth--, false);
    place++;
  }
}

/** The first objects of the array, and how many more there are. */
export function rowsOf(bytes) {
  const decoder = new TextDecoder();
  const rows = [];
  let [count, start] = [0, 0];
  visitBraces(bytes, (place, depth, opens) => {
    if (depth !== 1) return;
    if (opens) start = place;
    else if (++count <= MOST_ROWS && place <= MOST_BYTES) rows.push(JSON.parse(decoder.decode(bytes.subarray(start, place))));
  });
  return { rows, more: count - rows.length };
}
