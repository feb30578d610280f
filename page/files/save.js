// @ts-check
// Files that the page saves.
import {h} from "../elements.js";

/** @type {(file: File) => void} */
export function saveFile(file) {
  const url = URL.createObjectURL(file), link = h("a", {href: url, download: file.name});
  link.click();
  setTimeout(() => URL.revokeObjectURL(url), 60000);
}

// A name for a file that is saved of a recording.
/** @type {(it: {file: File}, ending: string) => string} */
export function savedName(it, ending) {
  const base = it.file.name.replace(/\.[^.]*$/, "").replace(/[\p{C}\p{Zl}\p{Zp}\\/:*?"<>|]/gu, "_").slice(0, 100);
  return (base || "recording") + ending;
}

/** @type {(name: string, text: string, type: string) => void} */
export function save(name, text, type) {
  const url = URL.createObjectURL(new Blob([text], {type}));
  const link = h("a", {href: url, download: name});
  link.click();
  setTimeout(() => URL.revokeObjectURL(url), 10000);
}
