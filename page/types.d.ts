// The shapes of what goes from one script to another, for tsc alone (tests/page-types).

/** What make.py makes for the scripts. */
declare module "built" {
  export const RULES: Record<string, Record<string, string[]>>;
  export const EXAMPLES: {name: string, words: string, text: string}[];
  export const WORKER: string;
  export const IMPORTER: string;
  export const MODULE: string;
}

type ByteList = Uint8Array | number[];
/** The module's calls and its memory. */
type Calls = any;
type Acts = import("./checker/acts.js").Acts;
type Checker = import("./checker/checker.js").Checker;

/** What was jumped to: rows, when they were, and the stretch where it is one. */
interface Here extends Rows {
  at?: number;
  stretch?: number;
}

/** Rows of the recording, from the first to the last one. */
interface Rows {
  first: number;
  last: number;
}

/** Acts, packed (packed.js): in words, but that these are bytes. */
interface Packed {
  records: ArrayBuffer;
  polls: ArrayBuffer;
  index: ArrayBuffer;
}

/** What a worker has, and the browsers that lib.dom.d.ts of TypeScript 4.8 doesn't know yet. */
declare class FileReaderSync {
  readAsArrayBuffer(blob: Blob): ArrayBuffer;
}
declare class DecompressionStream {
  constructor(format: string);
  readable: ReadableStream;
  writable: WritableStream;
}
interface Array<T> {
  findLast(isMeant: (one: T) => boolean): T | undefined;
}

// What the module tells ----

/** What a device's answer to SETUP says. `from` is the act from which on it counts. */
interface Setup {
  scale?: number;
  decimals?: number;
  credits?: number[];
  response?: number;
  level?: number;
  code?: string;
  from?: number;
  isUnknown?: boolean;
}

/** An entry of money, a sale or a session (news.js). */
interface Entry extends Rows {
  begin: number;
  at: number;
  device: number;
  kind: string;
  what: string;
  type: number | string;
  units: number | bigint | null;
  decimals: number | undefined;
  acknowledged: boolean;
  noAmount: boolean;
  isToken: boolean;
  isUntold?: boolean;
  count?: number;
}

interface Silence extends Rows {
  device: number;
  from: number;
  to: number;
  asks: number;
}

/** A reset, a break or a set-up that was told. */
interface Happening extends Rows {
  begin: number;
  at: number;
  device?: number;
  kind?: string;
  what?: string;
  acknowledged?: boolean;
  length?: number;
}

interface Found {
  money: Entry[];
  sessions: Entry[];
  resets: Happening[];
  breaks: Happening[];
  silences: Silence[];
  setups: Happening[];
  // The readers that approved an amount that isn't told.
  untold?: Set<string>;
}

/** A line of the file; `whole` is whether `bytes` has all of its `length`. */
interface Line {
  bytes: ByteList;
  whole: boolean;
  length?: number;
  row?: number;
}

/** The least and the greatest of an amount. */
type Bounds = [bigint, bigint];

interface Account {
  device: Bounds;
  controller: Bounds;
  difference: Bounds;
}

/** The verdict's text, as values (report.js). */
interface Report {
  accounts?: Record<string, Account>;
  decimals?: Record<string, number | null>;
  silences?: Record<string, number>;
  untimely?: Record<string, number> | null;
  unvalued?: Record<string, number> | null;
  setup?: string[];
  without?: string[];
  rows?: string;
  rule?: string;
  blame?: string;
}

/** How many commands and words of each line were found until both lines had one (rows.js). */
interface Spoken {
  commands: number;
  M: number;
  S: number;
}

/** How a recording is taken: the module's options, the program's words, and the set-ups that are given. */
interface Way {
  bytes: Uint8Array;
  words?: string[];
  given?: (Setup | null)[];
  key?: string;
  late?: Way | null;
}

/** What isn't known of a reader, where the extended profile doesn't follow it (unjudged.js). */
interface Unknown {
  device: number;
  what: string;
  row: number;
  isCommand: boolean;
  bytes: ByteList;
  first: number;
  levels: Levels;
}

interface Levels {
  controller: number | null;
  reader: number | null;
}

/** A sum to which a run comes, and that run's marks (checker/weighed.js). */
interface WeighedEnd {
  value: bigint;
  lost: number;
  restarts: number;
  repeats: number;
  all: number;
}

/** What the module answers to a recording, and what is known and shown of that. */
interface Answer {
  answer?: number;
  text?: string;
  before?: string;
  isOpen?: boolean;
  row?: number;
  offset?: number;
  fault?: number;
  lines?: Line[];
  acts?: Packed;
  listed?: number;
  all?: number;
  hole?: number;
  link?: {answer: number, row: number, isChoice?: boolean, time?: number};
  until?: number;
  spoken?: Spoken;
  size?: number;
  ms?: Record<string, number>;
  memory?: number;
  found?: Found;
  late?: Answer | null;
  isFollowed?: boolean;
  way?: Way;
  list?: Acts;
  report?: Report | null;
  unjudged?: number;
  unknown?: Unknown | null;
  file?: File;
  name?: string;
  key?: string;
  isKept?: boolean;
  when?: Date;
  sum?: Promise<string>;
  sha256?: string;
  replayed?: {answer: number, text: string, row: number} | null;
  rises?: {all: number, listed: ArrayBuffer} | null;
  weights?: Record<number, ArrayBuffer | null>;
  survey?: Survey;
  atFirst?: Partial<Answer>;
  cuts?: number[];
  gaps?: Fault[];
  isApart?: boolean;
  faultBefore?: number;
  // What each part of the report keeps of what it shows.
  here?: Here;
  places?: any[];
  statement?: any;
  openMoney?: any;
  orders?: Order[];
  lostSpans?: {row: number, device: number, to: number}[];
  quiet?: Uint8Array;
  hits?: any;
  search?: object;
  hidden?: number;
  isSearched?: boolean;
  nextAct?: number;
  from?: number;
  line?: any;
  lineFrom?: number;
}

// A survey ----

interface Fault {
  number: number;
  row: number;
  rule: string;
  blame: string;
  offset?: number;
  time?: number;
  before?: number;
  after?: number;
  isChoice?: boolean;
  saleOf?: number;
  isOpen?: boolean;
  about?: {lines: Line[], list: Acts};
}

interface Stretch extends Rows {
  number: number;
  lines: string[];
  report?: Report;
  from?: number;
  to?: number;
}

interface Survey {
  answer: number;
  row: number;
  offset: number;
  fault: number;
  lines: Line[];
  text: string;
  last: string;
  whole: string;
  begin: number;
  end: number;
  all: number;
  listed: number;
  ms: number;
  rows: number;
  judged: number;
  stretches: Stretch[];
  faults: Fault[];
  counts: Record<string, number> | null;
  totals: Report | null;
  faultFrom: number;
  stretchFrom: number;
}

// What is shown ----

type Part = string | Rows & {isCapital?: boolean};
type Parts = (Part | Parts)[];

/** A sentence of a story (sentences.js). */
interface Sentence {
  kind: string;
  parts: Part[];
}

/** The first row and the last one, or one row alone. */
type RowPair = [number, number?];

/** Open money, or trouble that a device reported (open-money.js). */
interface OpenEntry {
  kind: string;
  device: number;
  rows: RowPair[];
  amounts: any[];
  came: string;
  cameRows: RowPair | null;
  time: number;
  last: number;
  until: number;
  item: number | null;
  count?: number;
  answer?: string;
  code?: number;
  silent?: number | null;
  paid?: any;
}

/** An order to pay out of a device that isn't followed, or what a recycler says that it paid: its first and last row,
 * and a recycler's bytes (rows.js). */
interface Order {
  row: number;
  end: number;
  time: number;
  code: number;
  bytes: number[];
}

/** A row of the file near the one that cannot be (link-story.js). */
interface Near {
  row: number;
  at: number;
  line: string;
  value: string;
  word: number;
}

type Heads = string[][];

/** A lane of the time line (lanes.js). */
interface Lane {
  name: string;
  kind: (k: number) => string;
  begin: Float64Array;
  end: Float64Array;
  isLong: boolean;
  words: (k: number) => string;
  jump: (k: number, from?: Element) => void;
}

/** How far a run is: `most` is so long as it will probably take, in milliseconds. */
interface Progress {
  doing: string;
  part: number;
  most?: number;
}

// Imports ----

/** A field of a record: where it begins and ends. */
interface Field {
  all: Uint8Array;
  from: number;
  to: number;
}

/** What fields of the panel say, as words of mdbimport's options. */
interface ImportWords {
  unit?: string;
  controller?: string;
  peripheral?: string;
  timeOf?: string;
  length?: string;
  from?: string;
  until?: string;
  decimal?: boolean;
  invert?: boolean;
  invertLine?: string;
  swap?: boolean;
  skip?: boolean;
  decoded?: boolean;
}

/** The import that is asked about (panel.js). */
interface OpenImport {
  file: File;
  then: (rows: File, isButton?: boolean) => void;
  importer: import("./import/importer.js").Importer;
  found: any;
  words: string;
  format?: string | null;
  look?: any;
  answer?: any;
  made?: any;
  refusal?: any;
  options?: ImportWords;
  asks?: string[];
  preview?: object;
  isChecked?: boolean;
  isExchanged?: boolean;
}
