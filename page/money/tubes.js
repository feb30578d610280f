// @ts-check
// Whether the changer's tubes show a payout: the numbers of TUBE STATUS before and after it.

// The DISPENSE commands that the changer took, until an answer to TUBE STATUS shows what became of them.
export class TubeWatch {
  constructor() {
    this.forget();
  }
  forget() {
    /** @type {ByteList | null} */
    this.counts = null;
    // The types that went in or out otherwise since these counts.
    this.moved = new Set();
    this.pending = [];
    this.isOver = false;
  }
  dispensed(payout) {
    const type = payout.code & 15;
    this.pending.push({payout, type, before: this.counts?.[type] ?? 0, isMoved: this.moved.has(type)});
    this.isOver = false;
  }
  isPending() {
    return this.pending.length > 0;
  }
  // The changer answered a POLL. The payout is over if it isn't busy any more.
  polled(isBusy) {
    this.isOver = !isBusy;
  }
  move(type) {
    this.moved.add(type);
    for (const it of this.pending) it.isMoved ||= it.type === type;
  }
  // An answer to TUBE STATUS: the payouts of which the coins are still there.
  status(counts) {
    const still = ({type, before, isMoved}) => before > 0 && (counts[type] ?? 0) >= before && !isMoved;
    const found = this.isOver ? this.pending.filter(still) : [];
    if (this.isOver) this.pending = [];
    this.counts = counts;
    this.moved.clear();
    return found.map(({payout}) => payout);
  }
}
