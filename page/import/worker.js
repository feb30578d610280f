// @ts-check
// Runs imports away from the page: reads a file in pieces, and answers what it is, the first rows, or all of them
// as a file.
import {Sha256} from "../checker/sha256.js";

import {newImport, optionsFault, optionsOf, preview} from "./formats.js";
import {known, look, other} from "./known.js";

const FRONT_SIZE = 1 << 20, END_SIZE = 1 << 10, PIECE = 1 << 22, HELD = 1 << 23;

const bytesOf = (part) => new Uint8Array(new FileReaderSync().readAsArrayBuffer(part));

// The first bytes of a file. (Of a file of no bytes all is read, since a folder has none and can't be.)
const frontOfFile = (file) => bytesOf(file.size ? file.slice(0, FRONT_SIZE) : file);

// Pieces of text that are put together now and then, so that they lie in the browser's store.
class Pieces {
  constructor() {
    this.blobs = [];
    this.held = [];
    this.size = 0;
  }

  add(bytes) {
    this.held.push(bytes);
    this.size += bytes.length;
    if (this.size > HELD) this.put();
  }

  put() {
    this.blobs.push(new Blob(this.held));
    this.held = [];
    this.size = 0;
  }

  file(name) {
    this.put();
    return new File(this.blobs, name, {type: "text/csv"});
  }
}

const WORK = {
  known: ({file}) => {
    try {
      return known(frontOfFile(file), file.size, bytesOf(file.slice(-END_SIZE)), file.name);
    } catch (fault) {
      return other("a folder, or a file that can't be read any more");
    }
  },
  look: ({file, kind}) => look(frontOfFile(file), file.size <= FRONT_SIZE, kind),
  preview: ({file, format, options}) => {
    const fault = optionsFault(options);
    if (fault) return {refused: fault, rows: 0, first: [], records: [], notes: [], goOn: null, isWhole: true};
    return preview(frontOfFile(file), file.size <= FRONT_SIZE, format, optionsOf(options));
  },
  import: ({file, format, options, name}, tell) => {
    const pieces = new Pieces(), begin = performance.now(), fault = optionsFault(options);
    if (fault) return {refused: fault, goOn: null, rows: 0, notes: [], file: pieces.file(name), ms: 0};
    const made = newImport(format, optionsOf(options), (bytes) => pieces.add(bytes)), sum = new Sha256();
    for (let from = 0; from < file.size && !made.isDone(); from += PIECE) {
      tell(from / file.size);
      const bytes = bytesOf(file.slice(from, from + PIECE));
      made.take(bytes);
      sum.add(bytes);
    }
    const sha256 = made.isDone() ? null : sum.hex(), answer = made.end();
    return {...answer, sha256, file: pieces.file(name), ms: performance.now() - begin};
  }
};

onmessage = ({data}) => {
  const {number, work} = data, tell = (part) => postMessage({number, part});
  try {
    postMessage({number, answer: WORK[work](data, tell)});
  } catch (fault) {
    postMessage({number, fault: fault.message});
  }
};
