// @ts-check
// The lines of the verdict's text, as values.
import {BLAMES, counted, listed} from "../texts.js";

/** @type {Record<string, {title: string, device: string, owner: string, did: string, worth?: string}>} */
export const ACCOUNTS = {
  "coins-in": {title: "Coins in", device: "changer", owner: "The changer", did: "took", worth: " in coins"},
  "bills-in": {title: "Bills in", device: "bill", owner: "The validator", did: "took", worth: " in bills"},
  "paid-out": {title: "Coins paid out", device: "changer", owner: "The changer", did: "paid out"},
  approved: {title: "Approved by card reader 1", device: "cashless", owner: "Card reader 1", did: "approved"},
  sold: {title: "Sold by card reader 1", device: "cashless", owner: "Card reader 1", did: "booked"},
  "approved-2": {title: "Approved by card reader 2", device: "cashless-2", owner: "Card reader 2", did: "approved"},
  "sold-2": {title: "Sold by card reader 2", device: "cashless-2", owner: "Card reader 2", did: "booked"},
};

// The rules of the devices. The others are of the link, or Profile.
export const DEVICE_RULES = ["Changer", "Bill", "Cashless"];

// Lines with a number of each device, or of each sender.
const COUNTED = ["decimals", "silences", "untimely", "unvalued"];

/** @type {(text: string) => Report} */
export function readReport(text) {
  const report = {accounts: {}, decimals: {}, silences: {}, untimely: null, unvalued: null, setup: [], without: []};
  for (const line of text.trimEnd().split("\n")) {
    const [word, ...rest] = line.split(" ");
    if (word in ACCOUNTS) {
      const range = (i) => rest[i].split("..").map(BigInt);
      report.accounts[word] = {device: range(1), controller: range(3), difference: range(5)};
    } else if (COUNTED.includes(word)) {
      report[word] ??= {};
      for (let i = 0; i < rest.length; i += 2) report[word][rest[i]] = rest[i + 1] === "-" ? null : Number(rest[i + 1]);
    } else if (word === "setup" || word === "without")
      report[word] = rest;
    else
      report[word] = rest.join(" ");
  }
  return report;
}

// How many rows came out of their time, by who sent them; empty where none did, or they aren't counted.
/** @type {(report: Report) => string} */
export function untimelyWords({untimely}) {
  const some = Object.entries(untimely ?? {}).filter(([, n]) => n > 0);
  return listed(some.map(([who, n]) => `${counted(n, "row")} of ${BLAMES[who]}`));
}
