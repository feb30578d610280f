// @ts-check
// A recording with fields between quotes, or with CR alone at the ends of its lines: the same rows without
// them. A record is written as it stands, since the checker tells what is wrong with it. One is refused if
// that would be read as something else.
import {Bytes, COMMA, CR, excerpt, LF, QUOTE, Records, ROOM} from "./text.js";

export class PlainImport {
  constructor(options, give) {
    this.give = give;
    this.part = {rows: 0};
    this.records = new Records((record) => this.take(record));
    this.text = new Bytes();
    this.refused = null;
  }

  take(record) {
    const {all, length} = record.line;
    if (!this.isKept(record)) {
      this.refused = `row ${
          record
              .number}: a field between quotes has a comma, a quotation mark or the end of a line in it, or nothing stands there; found "${
          excerpt(record)}"`;
      return false;
    }
    for (let i = 0; i < length; i++) this.text.push(all[i]);
    this.text.push(LF);
    this.part.rows++;
    if (this.text.length > ROOM) this.flush();
    return true;
  }

  // Whether a record's line is read as the same record.
  isKept({line, count, number}) {
    const {all, length} = line, text = all.subarray(0, length);
    const hasMark = number === 1 && text[0] === 0xEF && text[1] === 0xBB && text[2] === 0xBF;
    let commas = 0;
    for (let i = 0; i < length; i++) commas += all[i] === COMMA ? 1 : 0;
    return length > 0 && !hasMark && commas === count - 1 && ![QUOTE, LF, CR].some((it) => text.includes(it));
  }

  flush() {
    if (this.text.length) this.give(this.text.text());
    this.text.length = 0;
  }

  end() {
    this.flush();
  }
}
