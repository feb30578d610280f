// @ts-check
// Elements of the page: all text goes in as text, never as markup.

/** @typedef {Node | string | number | null | undefined | false} Content */

// The element with an id. Where it may be missing, it is asked for.
/** @type {(id: string) => HTMLElement} */
export const by = (id) => document.getElementById(id);

// The same of a field or a button.
/** @type {(id: string) => HTMLInputElement} */
export const fieldBy = (id) => /** @type {HTMLInputElement} */ (by(id));

// The same of a bar that shows how far something is.
/** @type {(id: string) => HTMLProgressElement} */
export const barBy = (id) => /** @type {HTMLProgressElement} */ (by(id));

// Opens the settings.
export const openWays = () => by("ways").setAttribute("open", "");

/**
 * @type {<K extends keyof HTMLElementTagNameMap>(name: K, attributes?: object, ...inner: any[]) =>
 *     HTMLElementTagNameMap[K]}
 */
export function h(name, attributes, ...inner) {
  const made = document.createElement(name);
  for (const [key, value] of Object.entries(attributes ?? {})) {
    if (key.startsWith("on"))
      made.addEventListener(key.slice(2), value);
    else if (value !== undefined && value !== false)
      made.setAttribute(key, value === true ? "" : value);
  }
  made.append(...inner.flat().filter((it) => it !== null && it !== undefined));
  return made;
}

/**
 * @type {<K extends keyof SVGElementTagNameMap>(name: K, attributes?: object, ...inner: any[]) =>
 *     SVGElementTagNameMap[K]}
 */
export function s(name, attributes, ...inner) {
  const made = document.createElementNS("http://www.w3.org/2000/svg", name);
  for (const [key, value] of Object.entries(attributes ?? {})) made.setAttribute(key, value);
  made.append(...inner.flat());
  return made;
}

/** @type {(title: string, id: string, ...inner: any[]) => HTMLElement} */
export const section = (title, id, ...inner) =>
    h("section", {"aria-labelledby": id + "-title", id}, h("h2", {id: id + "-title"}, title), ...inner);

/** @type {(caption: string, heads: Heads, rows: Element[]) => HTMLElement} */
export function table(caption, heads, rows) {
  return h(
      "div", {class: "scroll"},
      h("table", {}, h("caption", {}, caption),
        h("thead", {}, h("tr", {}, heads.map(([words, kind]) => h("th", {scope: "col", class: kind}, words)))),
        h("tbody", {}, rows)));
}

// Says one sentence to whoever can't see the page.
/** @type {(words: string) => void} */
export function announce(words) {
  by("announced").textContent = words;
}
