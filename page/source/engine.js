// The program `ti`, as a module of WebAssembly: words and bytes in, what the program writes out.

import { MODULE } from "./data.js";
import { rowsOf } from "./rows.js";

// The slots of the module; page/engine/src/lib.rs says what each is for.
const SLOT = { words: 0, input: 1, file: 2, output: 3, errors: 4 };
// A module that took more memory than this is put away after the call, since its memory never shrinks.
const MOST_MEMORY = 64 << 20;
const NOTHING = new Uint8Array();
const encoder = new TextEncoder();
const decoder = new TextDecoder();

let compiled;
let instance;

/** Bytes that are written as base64. */
export function bytesOf(text) {
  return Uint8Array.from(atob(text), (character) => character.charCodeAt(0));
}

/** Unpacks and compiles the module. */
export async function start() {
  const unpacking = new Blob([bytesOf(MODULE)]).stream().pipeThrough(new DecompressionStream("deflate-raw"));
  compiled = await WebAssembly.compile(await new Response(unpacking).arrayBuffer());
}

function put(exports, slot, bytes) {
  const place = exports.room(slot, bytes.length);
  new Uint8Array(exports.memory.buffer).set(bytes, place);
}

/** The bytes of a result, where they are. */
function bytesIn(exports, slot) {
  return new Uint8Array(exports.memory.buffer, exports.place(slot), exports.length(slot));
}

function call(exports, { words, input, file, take, isForPerson }) {
  put(exports, SLOT.words, encoder.encode(words.join("\0")));
  put(exports, SLOT.input, input);
  put(exports, SLOT.file, file);
  const status = exports.run(isForPerson ? 1 : 0);
  const outcome = { status, output: take(bytesIn(exports, SLOT.output)), errors: decoder.decode(bytesIn(exports, SLOT.errors)).trimEnd() };
  exports.clear();
  return outcome;
}

/**
 * Runs the program on its words, with `input` as standard input and `file` as what any named file holds. `take` makes of the output
 * what is returned as such: a copy, if it is not given. A call that stops, such as one without memory, has the status 6, and the
 * next one starts anew.
 */
export function run(words, input, file = NOTHING, take = (bytes) => bytes.slice()) {
  try {
    instance ??= new WebAssembly.Instance(compiled);
    const outcome = call(instance.exports, { words, input, file, take });
    if (memoryInUse() > MOST_MEMORY) instance = undefined;
    return outcome;
  } catch (fault) {
    instance = undefined;
    return { status: 6, output: take(NOTHING), errors: `stopped: ${fault}` };
  }
}

/** The lines on the fault of a file that is no entry, as the program writes them at a terminal. */
export function faultOfFile(name, bytes) {
  const place = name.startsWith("-") ? `./${name}` : name;
  return call(new WebAssembly.Instance(compiled).exports, {
    words: ["show", place], input: NOTHING, file: bytes, take: () => undefined, isForPerson: true,
  }).errors;
}

/** How many bytes the module has. */
export function memoryInUse() {
  return instance?.exports.memory.buffer.byteLength ?? 0;
}

/** The rows of a call that writes JSON, and how many there are beyond the first; or the line on a fault. */
function readDocument(words, input, file) {
  const { status, output, errors } = run(words, input, file, rowsOf);
  return status > 1 ? { rows: [], more: 0, fault: errors || `status ${status}` } : output;
}

const parameterWords = (values) => values.map((value) => (typeof value === "number" ? `n:${value}` : `s:${value}`));

export const show = (entry) => readDocument(["show", "--json"], entry);
export const check = (entry) => readDocument(["check", "--json"], entry);
export const lint = (entry, options) => readDocument(["lint", "--json", ...options], entry);

/** The trace of a text, given by its bytes: its name can be one that the command line has no word for, or that two texts have. */
export const trace = (text, values) => readDocument(["trace", "--json", "--", ...parameterWords(values)], text);

/** What the entry has and `other` has not alike; with `byTokens` only what expands otherwise. */
export function diff(entry, other, byTokens) {
  return readDocument(["diff", "--json", ...(byTokens ? ["--expand"] : []), "-", "other"], entry, other);
}

// The name of the only capability in the entry below.
const ONLY = "p";

/** An entry whose only capability is this text, as one of its own (term(5), "extended storage format"). */
function entryOf(text) {
  const names = [ONLY.charCodeAt(0), 0];
  const words = (...numbers) => numbers.flatMap((number) => [number & 255, number >> 8]);
  const head = [...words(0o432, names.length, 0, 0, 0, 0), ...names];
  const own = [...words(0, 0, 1, 2, text.length + 1 + names.length), ...words(0, 0)];
  return Uint8Array.from([...head, ...own, ...text, 0, ...names]);
}

/** The bytes that a text sends for these values, without its delays; or undefined if there is a fault. */
export function sent(text, values) {
  const { status, output } = run(["get", "--", ONLY, ...parameterWords(values)], entryOf(text));
  return status ? undefined : output;
}

/** The entry in its canonical layout; `width` is `--wide`, `--narrow` or empty. */
export const convert = (entry, width) => run(["convert", ...(width ? [width] : [])], entry);

export const version = () => decoder.decode(run(["--version"], NOTHING).output).trim();
