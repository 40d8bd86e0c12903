// Elements. All that comes from an entry goes in as text: only `inside` below may hold it, and the browser makes text nodes of that.

/** The element of the page with this id. */
export const byId = (id) => document.getElementById(id);

/**
 * Makes an element. The names and values of attributes are words of this page, never an entry's; a name such as `onclick` has a
 * function. What is inside is elements and texts; `undefined` among them is left out.
 */
export function make(tag, attributes = {}, ...inside) {
  const made = document.createElement(tag);
  for (const [name, value] of Object.entries(attributes)) {
    if (typeof value === "function") made.addEventListener(name.slice(2), value);
    else if (value !== undefined && value !== false) made.setAttribute(name, value === true ? "" : value);
  }
  made.append(...inside.filter((item) => item !== undefined));
  return made;
}

/** A count with its noun, such as "1 finding" or "2,000 findings". */
export function counted(count, noun, plural = `${noun}s`) {
  return `${count.toLocaleString("en")} ${count === 1 ? noun : plural}`;
}
