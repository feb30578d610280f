// @ts-check
// The module, and a worker that runs it on a recording.
import {EXAMPLES, MODULE, WORKER} from "built";

import {NO_BLOCK, SetupFault} from "../run/options.js";

import {DEVICES} from "./acts.js";
import {layout, readLayout} from "./layout.js";
import {addPiece, noNews} from "./news.js";

// The module, once it is there.
/** @type {WebAssembly.Module | null} */
export let module = null;

// A module with a memory of 64-bit addresses, and nothing else.
const MEMORY64 = [0, 97, 115, 109, 1, 0, 0, 0, 5, 3, 1, 4, 1];

// The bytes that make.py packed. Each browser with memory64 has DecompressionStream.
function unpacked(text) {
  const packed = new Blob([Uint8Array.from(atob(text), (c) => c.charCodeAt(0))]);
  return new Response(packed.stream().pipeThrough(new DecompressionStream("deflate-raw"))).arrayBuffer();
}

/** @type {() => Promise<void>} */
export async function start() {
  if (typeof WebAssembly !== "object" || !WebAssembly.validate(Uint8Array.from(MEMORY64))) {
    throw new Error(
        "This browser can't run the checker: it has no WebAssembly with 64-bit memory (memory64). The page was tried in " +
        "Chromium 156 and Firefox 153 on a computer. On an iPhone it wasn't tried: all browsers there use Apple's engine.");
  }
  const made = await WebAssembly.compile(await unpacked(MODULE));
  readLayout((await WebAssembly.instantiate(made)).exports);
  module = made;
}

// A worker with one recording. It reads the recording at the first message, and keeps it for the next ones. Its
// checksum (`sum`) comes some time after the first answer. A message has a number, which the worker gives back: what
// comes with another number answers nothing that is waited for.
export class Checker {
  constructor(recording) {
    this.url = URL.createObjectURL(new Blob([WORKER], {type: "text/javascript"}));
    this.worker = new Worker(this.url);
    /** @type {{module?: WebAssembly.Module, file?: File}} */
    this.first = {module, file: recording};
    this.waiting = new Map();
    this.number = 0;
    this.sum = new Promise((done) => {
      this.summed = done;
    });
    this.worker.onmessage = ({data}) => this.hear(data);
    this.worker.onerror = (e) => {
      e.preventDefault?.();
      for (const {failed} of this.waiting.values()) failed(new Error(e.message || "the worker ended"));
      this.waiting.clear();
    };
  }
  hear(data) {
    if (data.told === "sum") this.summed(data.sha256);
    const asked = this.waiting.get(data.number);
    if (!asked) return;
    if (data.told === "progress") {
      asked.progress?.(data);
      return;
    }
    if (data.told === "news") {
      addPiece(asked.found, data.news);
      return;
    }
    if (data.told === "listed") {
      asked.listing = {...data, found: asked.found};
      asked.look?.(asked.listing);
      return;
    }
    this.waiting.delete(data.number);
    if (data.told === "done")
      asked.done({found: asked.found, ...asked.listing, ...data});
    else
      asked.failed(data.device ? faultOf(data) : new Error(data.words));
  }
  // `look` takes what is listed before the answer is there.
  ask(message, progress, look) {
    const number = ++this.number, first = this.first;
    this.first = {};
    return new Promise((done, failed) => {
      this.waiting.set(number, {done, failed, progress, look, found: noNews()});
      this.worker.postMessage({...first, ...message, number});
    });
  }
  end() {
    URL.revokeObjectURL(this.url);
    this.worker.terminate();
  }
}

// Runs the module on the examples, by the extended profile, so that the first recording takes less time: what the
// browser compiled is of all workers.
/** @type {() => Promise<void>} */
export async function warmUp() {
  const warm = new Uint8Array(layout.options.size);
  warm[layout.options.extended] = 1;
  for (const {name, text} of EXAMPLES) {
    const it = new Checker(new File([text], name));
    await it.ask({warm}).catch(() => {});
    it.end();
  }
}

// A block that the module doesn't take.
const faultOf = ({field, device}) => new SetupFault(field, DEVICES[device], NO_BLOCK[field]);
