// The address: `#ENTRY/CAPABILITY/PARAMETER/..`, of a built-in entry alone. Of an entry that was opened it has nothing.

// A browser takes few changes of the address in a second, so they wait for a pause.
const PAUSE = 250;
// The most parameters that a text has.
const MOST_VALUES = 9;

let written;
let waiting;

/** What the address names, or undefined if it names nothing. */
export function readAddress() {
  const text = location.hash.slice(1);
  if (!text || text === written) return undefined;
  try {
    const [entry, name, ...values] = text.split("/").map(decodeURIComponent);
    return { entry, name, values: values.slice(0, MOST_VALUES) };
  } catch {
    return undefined;
  }
}

/** Sets the address to these words after a pause, and clears it if there are none. */
export function writeAddress(words) {
  clearTimeout(waiting);
  waiting = setTimeout(() => {
    const text = words.map((word) => encodeURIComponent(String(word))).join("/");
    if (text === location.hash.slice(1)) return;
    written = text;
    location.replace(`#${text}`);
  }, PAUSE);
}
