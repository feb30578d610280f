// @ts-check
// The worker that imports one file.
import {IMPORTER} from "built";

// A worker for one file. What it answers has the number of what it was asked.
export class Importer {
  constructor(file) {
    const url = URL.createObjectURL(new Blob([IMPORTER], {type: "text/javascript"}));
    this.worker = new Worker(url);
    URL.revokeObjectURL(url);
    this.file = file;
    this.waiting = new Map();
    this.number = 0;
    this.worker.onmessage = ({data}) => this.hear(data);
    this.worker.onerror = (e) => {
      e.preventDefault?.();
      for (const {failed} of this.waiting.values()) failed(new Error(e.message || "the worker ended"));
    };
  }

  hear({number, part, answer, fault}) {
    const waiting = this.waiting.get(number);
    if (part !== undefined) {
      waiting.progress?.(part);
      return;
    }
    this.waiting.delete(number);
    if (fault)
      waiting.failed(new Error(fault));
    else
      waiting.done(answer);
  }

  ask(message, progress) {
    const number = ++this.number;
    return new Promise((done, failed) => {
      this.waiting.set(number, {done, failed, progress});
      this.worker.postMessage({...message, file: this.file, number});
    });
  }

  // Ends it. What it was asked is never answered.
  end() {
    this.worker.terminate();
  }

  stop() {
    this.end();
    for (const {failed} of this.waiting.values()) failed(new Error("it was stopped"));
  }
}
