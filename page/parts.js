// Parts of pages: elements, tables and messages. What comes from a sheet is always set as text, never as markup.

// An element with its properties and children. `class`, `for`, `role`, `aria-..` and `data-..` are attributes.
export function make(tag, properties = {}, ...children) {
  const element = document.createElement(tag);
  for (const [name, value] of Object.entries(properties)) {
    if (/^(class|for|role|scope|colspan|aria-.*|data-.*)$/.test(name)) element.setAttribute(name, value);
    else element[name] = value;
  }
  element.append(...children.filter((child) => child !== null && child !== undefined));
  return element;
}

// A table under a caption; a cell is a text or an element. `numeric` has the columns of numbers.
export function makeTable(caption, heading, rows, numeric = []) {
  const size = numeric.length === heading.length ? "small" : "";
  const kind = (column) => ({ class: numeric.includes(column) ? "number" : "text" });
  const head = heading.map((it, column) => make("th", { scope: "col", ...kind(column) }, it));
  const body = rows.map((row) => make("tr", {}, ...row.map((it, column) => make("td", kind(column), it))));
  return make(
    "div", { class: "scroll", tabIndex: 0, role: "region", "aria-label": caption },
    make(
      "table", { class: size }, make("caption", {}, caption),
      make("thead", {}, make("tr", {}, ...head)), make("tbody", {}, ...body),
    ),
  );
}

// Puts these children into a place, and nothing else.
export function fill(place, ...children) {
  place.replaceChildren(...children.filter((child) => child !== null && child !== undefined));
}

// A folded part of the page.
export const fold = (title, ...children) => make("details", {}, make("summary", {}, title), ...children);

// Bytes in base 64, as the server takes them.
export function toBase64(bytes) {
  let text = "";
  for (let from = 0; from < bytes.length; from += 0x8000) {
    text += String.fromCharCode(...bytes.subarray(from, from + 0x8000));
  }
  return btoa(text);
}

// A number of things, in words.
export const count = (number, one) => `${number} ${one}${number === "1" ? "" : "s"}`;

// The fields of what a search may spend, each beginning as the program's default.
export function fillEffort(place, keys, names) {
  fill(place, ...names.filter((name) => keys[name]).map((name) => make(
    "label", {}, `${name[0].toUpperCase()}${name.slice(1)} `,
    make("input", { name, inputMode: "numeric", size: 9, placeholder: keys[name].default, title: keys[name].range }),
  )));
}

// The words that the fields of these names ask for.
export function wordsOf(form, names) {
  const found = {};
  for (const name of names) {
    const value = form.elements.namedItem(name)?.value.trim();
    if (value) found[name] = value;
  }
  return found;
}

// Shows what is wrong with a form, at the field of this name where there is one.
export function showWrong(form, text, name = "") {
  for (const field of form.elements) field.removeAttribute("aria-invalid");
  form.querySelector(".wrong").textContent = text;
  const field = name && form.elements.namedItem(name);
  if (field instanceof HTMLInputElement) {
    field.setAttribute("aria-invalid", "true");
    field.focus();
  }
}
