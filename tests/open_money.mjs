// Runs the page's list of open money (page/money/open-money.js) for tests/open-money, in node: reads a job from each line of
// standard input, and writes the entries in a line. A job has the acts as `show` prints them, with the times of their
// rows; they are laid out as the module lays them out, and read by the page's own scripts.
import readline from "node:readline";
import {Acts, DEVICES, KINDS, noteSetups, readSetup} from "../page/checker/acts.js";
import {layout, placesOf, STRUCTURES} from "../page/checker/layout.js";
import {openMoney} from "../page/money/open-money.js";

const SIZE = 80;
layout.act = placesOf(STRUCTURES.act, SIZE);

// The acts in memory: each has first and last row, the times of these, its kind, its device, its bytes in hex, and in which
// reading its messages were taken.
function actsOf(acts) {
  const buffer = new ArrayBuffer(acts.length * SIZE), view = new DataView(buffer), {act} = layout;
  acts.forEach(([first, last, start, end, kind, device, hex, reading], i) => {
    const at = i * SIZE, bytes = hex ? hex.split(" ").map((it) => parseInt(it, 16)) : [];
    [["first", first], ["last", last], ["start", start], ["end", end]].forEach(
        ([field, value]) => view.setBigUint64(at + act[field], BigInt(value), true));
    view.setUint8(at + act.kind, KINDS.indexOf(kind));
    view.setUint8(at + act.device, DEVICES.indexOf(device));
    view.setUint8(at + act.count, bytes.length);
    view.setUint8(at + act.reading, reading);
    bytes.forEach((byte, k) => view.setUint8(at + act.bytes + k, byte));
  });
  return new Acts(buffer, acts.length);
}

// An amount with its device's name.
const named = (amount) => ({...amount, device: DEVICES[amount.device]});

function entriesOf({acts, setups = {}, cuts = [], hole = -1, choices = [], orders = [], lost = []}) {
  const list = actsOf(acts), given = DEVICES.map((device, i) => {
    const hex = setups[device];
    return hex ? readSetup(i, hex.split(" ").map((it) => parseInt(it, 16))) : null;
  });
  noteSetups(list, given, hole, {setups: []});
  return openMoney(list, {hole, cuts, choices, orders, lost}).map(({until, ...it}) => ({
    ...it,
    device: DEVICES[it.device],
    amounts: it.amounts.map(named),
    paid: it.paid && named(it.paid),
  }));
}

readline.createInterface({input: process.stdin}).on("line", (line) => {
  process.stdout.write(JSON.stringify(entriesOf(JSON.parse(line))) + "\n");
});
