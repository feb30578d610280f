// @ts-check
// What a survey says of the whole recording.
import {ANSWERS, ROW_FAULTS} from "../checker/answers.js";
import {h} from "../elements.js";
import {asked} from "../run/asked.js";
import {BLAMES, counted, foundText, number} from "../texts.js";

const senders = (counts) =>
    Object.keys(BLAMES).filter((blame) => counts[blame]).map((blame) => `${BLAMES[blame]}: ${number(counts[blame])}`);

// How many faults there are, and who sent them.
/** @type {(survey: Survey) => string} */
export function surveyLead({all, counts, rows}) {
  const count = `${counted(all, "fault")} in ${counted(rows, "row")}`;
  if (!counts) return `${count}, up to where the survey ends.`;
  const sent = senders(counts), more = counts.profile;
  return [
    `${count}.`, sent.length ? `Sent by ${sent.join(", by ")}.` : "",
    more ? `${counted(more, "row")} ${more === 1 ? "isn't" : "aren't"} followed (rule Profile): no fault of anybody.` :
           ""
  ].filter(Boolean)
      .join(" ");
}

// Where the input ended the survey.
/** @type {(survey: Survey) => HTMLElement[]} */
export function surveyEnd({answer, row, lines, fault}) {
  if (answer < ANSWERS.BAD_ROW) return [];
  const why = answer === ANSWERS.TOO_LONG ? "A recording has at most 100,000,000 rows." :
      answer === ANSWERS.UNREAD ? `Row ${number(row)} contains a quote ("), or a CR that doesn't end its line.` :
                                  `Row ${number(row)} is no row. ${badRowWords(lines, row, fault)}`;
  const button = answer === ANSWERS.UNREAD ?
      h("button", {type: "button", class: "noprint", onclick: () => asked.takeQuotesOff()},
        "Take the quotes off and check") :
      null;
  return [h(
      "p", {id: "survey-end"}, h("strong", {}, "The survey ends before the end of the file. "), why,
      " The faults and stretches before it stand here. There are no totals.", " ", button)];
}

function badRowWords(lines, row, fault) {
  const line = lines.find((it) => it.row === row);
  return `${ROW_FAULTS[fault]}: wanted TIME,LINE,VALUE, found "${line ? foundText(line) : ""}".`;
}
