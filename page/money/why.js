// @ts-check
// Why a bound is what it is: the command of the program that explains it. The module can't: an explanation needs
// memory that it doesn't have.
import {h} from "../elements.js";
import {state} from "../run/now.js";

// The options of an explanation, as the program's words.
const explainWords = (way) => way.words.filter((it) => /^--(extended|without)/.test(it));

// What is said of a bound: how to have it explained.
/** @type {(it: Answer, account: string, side: string, bound: string) => any[]} */
function whyWords({name, way}, account, side, bound) {
  if (way.bytes[0])
    return ["The program mdbcheck explains a limit only where the recording begins at power-on. This one doesn't."];
  const command = ["mdbcheck explain", account, side, bound, ...explainWords(way), "< FILE"].join(" ");
  return [
    "The program mdbcheck, on Linux, says which words must have been lost, or which device restarted, for this limit. FILE is ",
    h("bdi", {}, name), ": ", h("code", {}, command)
  ];
}

// Shows in its article why a bound is so. The bound that was asked about stays marked.
function showWhy(button, account, side, bound) {
  const article = button.closest("article");
  for (const it of article.querySelectorAll(".why")) it.setAttribute("aria-expanded", String(it === button));
  article.querySelector(".why-told")
      .replaceChildren(
          h("strong", {}, `Why ${bound === "least" ? "at least" : "at most"} ${button.textContent}? `),
          ...whyWords(state, account, side, bound));
}

// A bound that can be asked about.
/** @type {(account: string, side: string, bound: string, amount: string) => HTMLElement} */
export function whyButton(account, side, bound, amount) {
  return h(
      "button", {
        type: "button",
        class: "why",
        "aria-expanded": "false",
        title: "Why?",
        onclick: (e) => showWhy(e.currentTarget, account, side, bound)
      },
      amount);
}
