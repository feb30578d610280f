// Runs the page's imports (page/import) for tests/page_imports, in node: reads a job from each line
// of standard input, and writes the answer in a line.
import readline from "node:readline";
import {newImport, optionsFault, optionsOf} from "../page/import/formats.js";
import {known, look} from "../page/import/known.js";

// Pieces of a text, each of the next of these sizes.
function* pieces(bytes, sizes) {
  for (let from = 0, i = 0; from < bytes.length; i++) {
    const to = Math.min(bytes.length, from + sizes[i % sizes.length]);
    yield bytes.subarray(from, to);
    from = to;
  }
}

// The lines that the program writes on standard error: one where it refuses, or what it reports.
const linesOf = (words) => words.map((it) => `mdbimport: ${it}\n`).join("");

function imported({format, options, text, sizes}) {
  const fault = optionsFault(options), bytes = new Uint8Array(Buffer.from(text, "base64")), rows = [];
  if (fault) return {status: 2, rows: "", told: linesOf([fault])};
  const made = newImport(format, optionsOf(options), (part) => rows.push(Buffer.from(part)));
  for (const piece of pieces(bytes, sizes)) made.take(piece);
  const {refused, notes} = made.end();
  return {status: refused ? 2 : 0, rows: Buffer.concat(rows).toString("latin1"), told: linesOf(refused ? [...notes, refused] : notes)};
}

const WORK = {
  import: imported,
  look: ({text, kind}) => look(new Uint8Array(Buffer.from(text, "base64")), true, kind),
  known: ({text, size}) => {
    const bytes = new Uint8Array(Buffer.from(text, "base64"));
    return known(bytes, size ?? bytes.length, bytes);
  },
};

readline.createInterface({input: process.stdin}).on("line", (line) => {
  const job = JSON.parse(line);
  process.stdout.write(JSON.stringify(WORK[job.work](job)) + "\n");
});
