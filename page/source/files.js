// Entries that come from files, and those that are saved as files.

import { byId, make } from "./dom.js";
import { convert } from "./engine.js";
import { MOST_BYTES } from "./entry.js";
import { shortened } from "./notation.js";

// The most characters of the name of a file.
const MOST_NAME = 40;

/** The bytes of a file, of which no more are read than tell that it is too long. */
export async function bytesOfFile(file) {
  return new Uint8Array(await file.slice(0, MOST_BYTES).arrayBuffer());
}

/** The options of a list of entries: those that came with the page, and one that has the name of a file while that is open. */
export function entryOptions(names) {
  return [...names.map((name) => make("option", { value: name }, name)), make("option", { value: "", hidden: true }, "opened file")];
}

/** Shows in a list of entries which one is open. */
export function showOpen(list, { builtIn, file }) {
  list.lastElementChild.textContent = shortened(file ?? "opened file", MOST_NAME);
  list.value = builtIn ?? "";
}

/** Hands a file over that the user picked, and lets the same one be picked again. */
export function watchPicker(input, onFile) {
  input.addEventListener("change", () => {
    if (input.files[0]) onFile(input.files[0]);
    input.value = "";
  });
}

/** Takes files that are dropped: on the left half as the first for `onFiles`, on the right half as the second, and two at once as both. */
export function watchDrops(onFiles) {
  const zone = byId("drop");
  const isOther = (event) => event.clientX > window.innerWidth / 2;
  addEventListener("dragover", (event) => {
    if (!event.dataTransfer?.types.includes("Files")) return;
    event.preventDefault();
    zone.hidden = false;
    zone.classList.toggle("other", isOther(event));
  });
  addEventListener("dragleave", (event) => {
    if (!event.relatedTarget) zone.hidden = true;
  });
  addEventListener("drop", (event) => {
    event.preventDefault();
    zone.hidden = true;
    const [first, second] = event.dataTransfer.files;
    if (second || !isOther(event)) onFiles(first, second);
    else onFiles(undefined, first);
  });
}

/** Saves bytes under a name of this page. */
function save(bytes, name) {
  const url = URL.createObjectURL(new Blob([bytes], { type: "application/octet-stream" }));
  make("a", { href: url, download: name }).click();
  setTimeout(() => URL.revokeObjectURL(url), 1000);
}

/** Saves the entry as `convert` writes it, or says why it can't be written so. */
export function watchDownload(entryNow) {
  const menu = byId("download");
  for (const button of menu.querySelectorAll("button")) {
    button.addEventListener("click", () => {
      const { bytes, builtIn } = entryNow();
      const { status, output, errors } = convert(bytes, button.dataset.width);
      byId("download-fault").textContent = status ? errors : "";
      if (status) return;
      save(output, `${builtIn ?? "entry"}${button.dataset.width.replace("--", ".")}`);
      menu.open = false;
    });
  }
}
