// @ts-check
// The card of a recording that has one line alone.
import {onlyLine} from "../checker/answers.js";

import {fillCard, nameWords, storyList} from "./parts.js";
import {fact, nextStep} from "./sentences.js";

const WORDS = {
  M: {
    head: "Only the controller's line was recorded",
    fact: "No row is of the devices' line (S), and the controller's commands have no answer.",
    next: "Check the clip on the devices' line, and which channel of the recorder is S. Record both lines.",
    else: "If the clip was right, no device answered at all: look at their power and their plugs.",
  },
  S: {
    head: "Only the devices' line was recorded",
    fact: "No row is a command of the controller (line M).",
    next: "Check the clip on the controller's line, and which channel of the recorder is M. Record both lines.",
    else: "If channel S was the controller's line, exchange the two clips or their names.",
  }
};

// What a recording of one line shows: nothing of the machine.
/** @type {(it: Answer) => void} */
export function showOneLine(it) {
  const words = WORDS[onlyLine(it)];
  fillCard(
      "limit", words.head, "This proves nothing, and blames nobody.",
      storyList([fact(words.fact), nextStep(words.next), nextStep(words.else)]), nameWords(it));
}
