// Elements by their tag, attributes and children. Text is set as text, so names of a case are never markup.

const SVG = "http://www.w3.org/2000/svg";

function put(element, attributes, children) {
  for (const [name, value] of Object.entries(attributes)) {
    if (name.startsWith("on")) element.addEventListener(name.slice(2), value);
    else if (value === true) element.setAttribute(name, "");
    else if (value !== undefined && value !== false) element.setAttribute(name, String(value));
  }
  element.append(...children.flat(Infinity).filter((child) => child !== undefined && child !== ""));
  return element;
}

export const make = (tag, attributes = {}, ...children) =>
  put(document.createElement(tag), attributes, children);
export const draw = (tag, attributes = {}, ...children) =>
  put(document.createElementNS(SVG, tag), attributes, children);
export const byId = (id) => document.getElementById(id);

// A figure as it is shown, with the whole number that it stands for beside it.
export const figure = (text, value, attributes = {}) =>
  make("span", { class: "figure", "data-value": value, ...attributes }, text);

const SHORT_NAME = 24; // letters; a longer one may be broken

// a, b and c, each name whole on its line.
export function namesOn(names, more = []) {
  const kind = (name) => (name.length > SHORT_NAME ? undefined : "name");
  const all = [...names.map((name) => make("span", { class: kind(name) }, name)), ...more];
  const between = (i) => (i === 0 ? "" : i === all.length - 1 ? " and " : ", ");
  return all.flatMap((each, i) => [between(i), each]);
}

// What an element shows and stands for; untouched where it is the same already.
export function show(element, text, value) {
  if (element.textContent !== text) element.textContent = text;
  if (value !== undefined) element.dataset.value = String(value);
}

// Fills an input unless it is being typed into.
export function fill(input, text) {
  if (input !== document.activeElement && input.value !== text) input.value = text;
}

// New children in place of the old ones. The focus goes to what has the key of what had it, or to the
// heading where that is gone.
export function redraw(parent, children, heading) {
  const focused = parent.contains(document.activeElement) ? document.activeElement : undefined;
  const key = focused?.dataset.focus;
  parent.replaceChildren(...children.flat(Infinity));
  if (!focused) return;
  const those = [...parent.querySelectorAll("[data-focus]")];
  const again = key && those.find((each) => each.dataset.focus === key);
  (again || heading)?.focus({ preventScroll: true });
}

// Marks a field whose text was not taken, and says why; without a reason it is taken.
export function faulty(input, reason = "") {
  input.classList.toggle("faulty", reason !== "");
  if (reason) input.setAttribute("aria-invalid", "true");
  else input.removeAttribute("aria-invalid");
  input.title = reason;
}

// Options of a select, by value and text.
export function options(select, entries, value) {
  select.replaceChildren(...entries.map(([key, text]) => make("option", { value: key }, text)));
  if (value !== undefined) select.value = String(value);
}
