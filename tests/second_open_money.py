#!/usr/bin/env python3
"""A second reader of open money, written from docs/bench/open-money.md.

    second_open_money.py [--extended] [--setup 'DEVICE BYTES'].. RECORDING SHOWN

RECORDING is a file of rows, and SHOWN what `mdbcheck show` prints of it, with --extended or without. It writes the
entries as JSON, in a line each.

    entries(rows, shown, setups, is_extended) -> list of entries

is the same as a function: the bytes of the rows, the lines of `show`, and set-up data by device, as `--setup` has them.
After a line `fault`, and after a line `gap`, the acts of another part of the recording may follow.
"""

import json
import sys

from reader_formats import Formats

KINDS = ('approved', 'failed', 'request', 'untaken', 'escrow', 'restart', 'lever', 'payout', 'choice', 'order',
         'trouble')
READERS = {'cashless': 0, 'cashless-2': 0x50}
CHANGER_TROUBLE = {0x03, 0x04, 0x06, 0x07, 0x08, 0x09, 0x0C, 0x0D}
BILL_TROUBLE = {0x01, 0x02, 0x04, 0x05, 0x07, 0x08, 0x0C}


def acts_of(shown):
    """The lines of `mdbcheck show` as tuples: first row, last row, what, device, bytes."""
    acts = []
    for line in shown:
        words = line.split()
        if words[0] == 'fault':
            acts.append((int(words[1]), int(words[1]), 'fault', words[3], words[2]))
        elif words[0] == 'gap':
            acts.append((0, 0, 'gap', None, []))
        else:
            first, last = words[0].split('-')
            data = [int(word, 16) for word in words[3:]]
            acts.append((int(first), int(last), words[1], words[2] if len(words) > 2 else None, data))
    return acts


def messages(device, data):
    """The messages of the changer's or the validator's reply to POLL, without its sum, from left to right."""
    at = 0
    found = []
    while at < len(data):
        size = 2 if device == 'changer' and data[at] >= 0x40 else 1
        found.append(data[at:at + size])
        at += size
    return found


class Values:
    """What a coin, a bill or an approval is worth, by a device's last set-up."""

    def __init__(self):
        self.data = {}

    def decimals(self, device):
        data = self.data.get(device)
        return None if data is None else data[5 if device == 'bill' else 4]

    def one(self, device, kind):
        """The value of a coin or bill of a type, or of an approved number."""
        data = self.data.get(device)
        if data is None:
            return None
        if device in READERS:
            return data[3] * kind
        scale, credits = (data[3], data[7:])
        if device == 'bill':
            scale, credits = (data[3] * 256 + data[4], data[11:])
        credit = credits[kind] if kind < len(credits) else 0
        return 0 if credit == 0xFF else scale * credit


class Sum:
    """An amount of one device: what has a value, and how many have none."""

    def __init__(self, device):
        self.device, self.units, self.unvalued, self.count = device, None, 0, 0

    def add(self, value, times=1):
        self.count += times
        if value is None:
            self.unvalued += times
        else:
            self.units = (self.units or 0) + value * times

    def field(self, decimals):
        return {'device': self.device, 'units': self.units, 'decimals': decimals,
                'unvalued': self.unvalued}


class Reading:
    """One pass over the acts of a recording, or of the parts that gaps leave of it."""

    def __init__(self, times, setups=None, is_extended=False):
        self.times = times
        self.formats = Formats(is_extended)
        self.values = Values()
        self.values.data.update(setups or {})
        self.troubles = {}
        self.choices = []
        self.orders = {}
        self.ordered = {}
        self.paid = {}
        self.was_paid = None
        self.paid_rows = None
        self.awaits_paid = False
        self.recycled = Sum('bill'), None
        self.lost = set()
        self.entries = []

    def time(self, act):
        return self.times[act[0] - 1]

    def put(self, kind, device, acts, sums, came=None, by=None, **more):
        """Lists an entry, unless its whole amount is known and 0."""
        amounts = [s.field(d) for s, d in sums]
        known = all(a['unvalued'] == 0 for a in amounts)
        if amounts and known and all(a['units'] == 0 for a in amounts):
            return
        self.entries.append({
            'kind': kind, 'device': device, 'time': self.time(acts[0]),
            'rows': [[a[0], a[1]] for a in acts], 'amounts': amounts, 'came': came,
            'cameRows': None if by is None else [by[0], by[1]],
            'count': more.get('count', 1), 'item': more.get('item'),
            'code': more.get('code'), 'answer': more.get('answer'),
            'silent': None, 'paid': more.get('paid'), 'last': self.time(acts[-1])})
        return self.entries[-1]

    # One part: what is open in it.

    def part(self, acts, word, fault):
        """Reads the acts of one part, which ends by `word` (end, gap, fault)."""
        self.approval = {d: None for d in READERS}
        self.item = {d: None for d in READERS}
        self.unknown = {d: True for d in READERS}
        self.request = {d: None for d in READERS}
        self.untaken = {d: None for d in READERS}
        self.has_sold = {d: False for d in READERS}
        self.silence = {d: None for d in READERS}
        self.bill = self.old_bill = self.cash = None
        self.payouts, self.tubes, self.touched = [], None, []
        self.is_over = False
        self.coins, self.bills = Sum('changer'), Sum('bill')
        self.presses, self.press = [], None
        self.refused = self.taken = self.waiting = None
        for i, act in enumerate(acts):
            nxt = acts[i + 1] if i + 1 < len(acts) else None
            what, device = act[2], act[3]
            if what == 'break':
                self.broke(act)
            elif what == 'ask':
                self.asked(act, nxt)
            elif what == 'foreign':
                for row in range(act[0], act[1] + 1):
                    self.ordered_in(row)
            elif what in ('ack', 'nak', 'reply'):
                if device == 'changer':
                    self.answered(act)
                    if what == 'ack' and i and acts[i - 1][2] == 'ask' and acts[i - 1][4][0] == 0x0B:
                        self.is_over = True
                if device in READERS:
                    self.unsilence(device, self.time(act))
                if what == 'reply':
                    self.replied(act, acts[i - 1] if i else None, acknowledged(acts, i))
        self.ended(acts, word, fault)

    def ordered_in(self, row):
        """Adds what a recycler's order that begins in this row asks for, or what it tells in it that it paid."""
        if row in self.paid and self.awaits_paid:
            self.told_paid(row, *self.paid[row])
        if row not in self.ordered:
            return
        self.awaits_paid = True
        amount, words = self.recycled[0], self.ordered[row]
        setup, what, rest = self.values.data.get('bill'), words[0], words[1:]
        if what == 6 and len(rest) >= 3:
            bill = self.values.one('bill', rest[0] & 0x0F)
            amount.add(None if bill is None else bill * (rest[1] * 256 + rest[2]))
        elif what == 7 and len(rest) >= 2 and setup is not None:
            amount.add((rest[0] * 256 + rest[1]) * (setup[3] * 256 + setup[4]))
        else:
            amount.add(None)
        self.recycled = amount, self.values.decimals('bill')

    def told_paid(self, row, last, counts):
        """Adds so many bills of each type that a recycler tells as paid."""
        self.awaits_paid = False
        amount, self.paid_rows = self.was_paid[0] if self.was_paid else Sum('bill'), (row, last)
        if not any(counts):
            amount.add(0)
        for kind, count in enumerate(counts):
            bill = self.values.one('bill', kind)
            if count:
                amount.add(None if bill is None else bill * count)
        self.was_paid = amount, self.values.decimals('bill')

    def broke(self, act):
        for device in READERS:
            self.unsell(device, 'break', act)
            self.silence_ends(device)
            self.has_sold[device] = False
            self.item[device] = None
            self.unknown[device] = False
        self.unescrow('break', act)
        self.unpaid('break', act)
        self.restarted('break', act)
        self.forget_tubes()
        self.payouts = []
        self.taken = None

    def silence_ends(self, device):
        if self.silence[device]:
            self.unsilence(device, self.silence[device]['last'])

    def unsilence(self, device, time):
        s, self.silence[device] = self.silence[device], None
        if s and s['request'] and s['request']['silent'] is None and time - s['from'] >= 2_000_000:
            s['request']['silent'] = time - s['from']
            if s['request']['entry']:
                s['request']['entry']['silent'] = time - s['from']

    def forget_tubes(self):
        self.tubes, self.touched = None, []
        for payout in self.payouts:
            payout['tubes'] = None

    def ended(self, acts, word, fault):
        for device in READERS:
            self.unsell(device, word, fault)
            self.silence_ends(device)
        self.unescrow(word, fault)
        self.put_old_bill()
        self.unpaid(word, fault)
        self.taken = None
        latest = max((self.time(a) for a in acts), default=0)
        for press in self.presses:
            if latest - self.time(press['acts'][-1]) > 30_000_000:
                self.unpressed(press, 'time', None)
            else:
                self.unpressed(press, word, fault)

    def asked(self, act, nxt):
        device, data = act[3], act[4]
        if device == 'changer':
            self.asked_changer(act, nxt)
        elif device == 'bill':
            if data[0] == 0x30:
                self.unescrow('reset', act)
                self.restarted('reset', act)
            if data[0] == 0x35 and self.bill and nxt and nxt[2:4] == ('ack', 'bill'):
                self.bill['order'] = 'stack' if data[1] & 1 else 'return'
        else:
            self.asked_reader(device, act, nxt)
            if not self.silence[device]:
                self.silence[device] = {'from': self.time(act), 'request': self.request[device]}
            self.silence[device]['last'] = self.time(act)

    def asked_reader(self, device, act, nxt):
        self.formats.ask(device, act[4][:-1])
        data = [act[4][0] - READERS[device]] + act[4][1:]
        if data[0] == 0x10:
            self.unsell(device, 'reset', act)
            self.has_sold[device] = False
            self.item[device] = None
            self.unknown[device] = False
        if data[0] != 0x13:
            return
        if data[1] == 0:
            self.lost.discard(device)
        if device in self.lost:
            return
        if data[1] == 0:
            self.unapprove(device, 'request', act)
            self.unsuccess(device, 'request', act)
            self.requested(device, act, data)
            self.has_sold[device] = False
            self.item[device] = data[4] * 256 + data[5]
        elif data[1] in (1, 2, 3):
            self.request[device] = None
        if data[1] == 2:
            self.success(device, act, data, nxt)
            self.approval[device] = None
        elif data[1] == 3:
            self.unsuccess(device, 'failed', act)
            if (a := self.approval[device]):
                self.put('failed', device, [a['act'], act], a['sums'], item=a['item'])
            elif self.unknown[device]:
                amount = Sum(device)
                amount.add(None)
                self.put('failed', device, [act], [(amount, self.values.decimals(device))])
            self.approval[device] = None
        elif data[1] == 4:
            self.unsell(device, 'complete', act)
        elif data[1] == 5:
            self.out(act)
        if data[1] in (0, 2, 3, 4):
            self.unknown[device] = False

    def price(self, device, number):
        amount = Sum(device)
        amount.add(None if number == 0xFFFF else self.values.one(device, number))
        return [(amount, self.values.decimals(device))]

    def requested(self, device, act, data):
        r = self.request[device]
        if r and r['data'] == data:
            r['acts'].append(act)
            return
        self.unrequest(device, 'request', act)
        self.request[device] = {'acts': [act], 'data': data, 'silent': None, 'entry': None,
                                'item': data[4] * 256 + data[5],
                                'sums': self.price(device, data[2] * 256 + data[3])}

    def success(self, device, act, data, nxt):
        u = self.untaken[device]
        if u and u['data'] != data:
            self.unsuccess(device, 'sold', act)
        if nxt and nxt[2] in ('ack', 'reply') and nxt[3] == device:
            self.untaken[device], self.has_sold[device] = None, True
            return
        if self.has_sold[device]:
            return
        if not self.untaken[device]:
            a = self.approval[device]
            self.untaken[device] = {'acts': [], 'data': data, 'item': data[2] * 256 + data[3],
                                    'sums': a['sums'] if a else self.price(device, 0xFFFF)}
        self.untaken[device]['acts'].append(act)
        self.untaken[device]['nak'] = nxt if nxt and nxt[2:4] == ('nak', device) else None

    def asked_changer(self, act, nxt):
        data = act[4]
        if self.taken:
            if self.taken['first'] is None:
                self.taken['first'] = self.time(act)
            elif self.time(act) - self.taken['first'] > 2_000_000:
                t, self.taken = self.taken, None
                self.doubt(t, 'silent', act)
        if data[0] == 0x08:
            self.unpaid('reset', act)
            self.restarted('reset', act)
            self.forget_tubes()
        if data[0] != 0x0D:
            return
        self.out(act)
        if self.refused and self.refused['acts'][0][4][1] != data[1]:
            self.unpaid('dispense', act)
        self.dispensed(act, nxt)

    def doubt(self, payout, word, by):
        if not payout['listed']:
            self.put('payout', 'changer', [payout['act']], payout['sums'], word, by,
                     code=payout['act'][4][1], answer='taken')
        payout['listed'] = True

    def dispensed(self, act, nxt):
        byte = act[4][1]
        amount = Sum('changer')
        value = self.values.one('changer', byte & 15)
        amount.add(None if value is None else value * (byte >> 4))
        sums = [(amount, self.values.decimals('changer'))]
        if nxt and nxt[2] == 'ack' and nxt[3] == 'changer':
            self.refused = None
            self.waiting = {'act': act, 'sums': sums, 'first': None, 'own': nxt, 'listed': False,
                            'type': byte & 15, 'tubes': self.tubes, 'touched': byte & 15 in self.touched}
            self.payouts.append(self.waiting)
            self.is_over = False
            return
        if not self.refused:
            self.refused = {'acts': [], 'sums': sums}
        self.refused['acts'].append(act)
        nak = nxt and nxt[2] == 'nak' and nxt[3] == 'changer'
        self.refused['nak'] = nxt if nak else None

    def answered(self, act):
        """An ack, nak or reply of the changer ends what it took before."""
        self.taken = None
        if self.waiting and self.waiting['own'] is act:
            self.taken, self.waiting = self.waiting, None

    def replied(self, act, ask, heard):
        device, data = act[3], act[4][:-1]
        ask = ask[4] if ask else [0]
        if device in READERS:
            found = self.formats.reply(device, data)
            for m in found:
                if m[0] == 1:
                    self.values.data[device] = m[1:]
            for m in found:
                self.reader_said(device, m, act, heard)
            return
        if ask[0] in (0x09, 0x31):
            self.values.data[device] = data
        if ask[0] == 0x36 and data[0] & 0x80:
            self.trouble('bill', 0x36, act)
        if ask[0] == 0x0A and device == 'changer':
            self.tube_status(data[2:], act)
        if ask[0] == 0x0B:
            self.is_over = all(m[0] != 2 for m in messages('changer', data))
            for m in messages('changer', data):
                self.changer_said(m, act, heard)
        if ask[0] == 0x33:
            for m in messages('bill', data):
                self.bill_said(m[0], act, heard)

    def tube_status(self, counts, act):
        """Numbers of coins in the tubes: of each payout since the last ones that is over."""
        for payout in self.payouts:
            before, kind = payout['tubes'], payout['type']
            if before is None or not self.is_over:
                continue
            payout['tubes'] = None
            was, now = (c[kind] if kind < len(c) else 0 for c in (before, counts))
            if was and now >= was and not payout['touched']:
                self.doubt(payout, 'tubes', act)
        self.tubes, self.touched = counts, []

    def touch(self, kind):
        self.touched.append(kind)
        for payout in self.payouts:
            payout['touched'] |= payout['type'] == kind

    def reader_said(self, device, m, act, heard):
        came = {0: 'restarted', 3: 'begun', 6: 'denied', 7: 'ended'}.get(m[0])
        if m[0] == 5 and device in self.lost:
            return
        if m[0] in (5, 6):
            self.request[device] = None
        if came == 'denied':
            self.unapprove(device, came, act)
        elif came:
            self.unsell(device, came, act)
        if came or m[0] == 5:
            self.unknown[device] = False
        if m[0] == 5 and heard and not self.approval[device]:
            sums = self.price(device, m[1] * 256 + m[2])
            self.approval[device] = {'act': act, 'sums': sums, 'item': self.item[device]}
        if m[0] == 0x0A:
            self.trouble(device, m[1], act)

    def changer_said(self, m, act, heard):
        first = m[0]
        if first in CHANGER_TROUBLE:
            self.trouble('changer', first, act)
            for payout in self.payouts:
                if self.time(act) - self.time(payout['act']) <= 5_000_000:
                    self.doubt(payout, 'trouble', act)
        if first == 0x0B and heard:
            self.unpaid('restarted', act)
        if first == 0x0B:
            self.restarted('restarted', act)
            self.forget_tubes()
        if first == 0x01:
            self.lever(act)
        if 0x50 <= first <= 0x5F or first >= 0x80:
            self.touch(first & 15)
        if 0x40 <= first <= 0x5F and heard:
            self.coins.add(self.values.one('changer', first & 15))
            self.paid_in('changer', first & 15, act)
            self.press = None
        if first >= 0x80 and (first >> 4) & 7:
            self.out(act)

    def bill_said(self, byte, act, heard):
        if byte in BILL_TROUBLE:
            self.trouble('bill', byte, act)
        if byte == 0x06:
            self.unescrow('restarted', act)
            self.restarted('restarted', act)
        if not 0x80 <= byte <= 0xBF:
            return
        kind, group = byte & 15, byte >> 4
        if self.old_bill and self.old_bill['kind'] == kind and group != 9:
            self.old_bill = None
        self.put_old_bill()
        if self.bill and self.bill['kind'] != kind:
            self.unescrow('bill', act)
        if group == 9 and not self.bill:
            amount = Sum('bill')
            amount.add(self.values.one('bill', kind))
            self.bill = {'kind': kind, 'act': act, 'order': None,
                         'sums': [(amount, self.values.decimals('bill'))]}
        elif group != 9:
            self.bill = None
        if group in (8, 11) and heard:
            self.bills.add(self.values.one('bill', kind))
            self.paid_in('bill', kind, act)
            self.press = None
        if group == 10:
            self.out(act)

    # Endings.

    def unapprove(self, device, word, by):
        a, self.approval[device] = self.approval[device], None
        if a:
            self.put('approved', device, [a['act']], a['sums'], word, by, item=a['item'])

    def unrequest(self, device, word, by):
        r, self.request[device] = self.request[device], None
        if r:
            acts = [r['acts'][0]] + r['acts'][1:][-1:]
            r['entry'] = self.put('request', device, acts, r['sums'], word, by, count=len(r['acts']),
                                  item=r['item'])
            if r['entry']:
                r['entry']['silent'] = r['silent']

    def unsuccess(self, device, word, by):
        u, self.untaken[device] = self.untaken[device], None
        if u:
            acts = [u['acts'][0]] + u['acts'][1:][-1:]
            if u['nak']:
                acts.append(u['nak'])
            self.put('untaken', device, acts, u['sums'], word, by, count=len(u['acts']),
                     item=u['item'], answer='refused' if u['nak'] else 'none')

    def unsell(self, device, word, by):
        self.unapprove(device, word, by)
        self.unrequest(device, word, by)
        self.unsuccess(device, word, by)

    def unescrow(self, word, by):
        b, self.bill = self.bill, None
        if not b:
            return
        b['end'] = (word, by)
        if word in ('break', 'reset', 'restarted'):
            self.old_bill = b
        else:
            self.put_bill(b)

    def put_bill(self, b):
        word, by = b['end']
        self.put('escrow', 'bill', [b['act']], b['sums'], word, by, answer=b['order'])

    def put_old_bill(self):
        b, self.old_bill = self.old_bill, None
        if b:
            self.put_bill(b)

    def paid_in(self, device, kind, act):
        if not self.cash or self.time(act) - self.time(self.cash['acts'][-1]) > 30_000_000:
            self.cash = {'acts': [], 'device': device, 'sums': {}}
        self.cash['acts'].append(act)
        amount, _ = self.cash['sums'].get(device) or (Sum(device), None)
        amount.add(self.values.one(device, kind))
        self.cash['sums'][device] = amount, self.values.decimals(device)

    def restarted(self, word, by):
        c, self.cash = self.cash, None
        if c and self.time(by) - self.time(c['acts'][-1]) <= 30_000_000:
            acts = c['acts']
            ends = [acts[0]] + ([acts[-1]] if acts[-1] is not acts[0] else [])
            sums = [c['sums'][d] for d in ('changer', 'bill') if d in c['sums']]
            self.put('restart', c['device'], ends, sums, word, by, count=len(acts))

    def unpaid(self, word, by):
        r, self.refused = self.refused, None
        if not r:
            return
        acts = [r['acts'][0]] + r['acts'][1:][-1:]
        if r['nak']:
            acts.append(r['nak'])
        self.put('payout', 'changer', acts, r['sums'], word, by, count=len(r['acts']),
                 code=r['acts'][0][4][1], answer='refused' if r['nak'] else 'none')

    def lever(self, act):
        if self.press:
            self.press['acts'].append(act)
            return
        if not (self.coins.count or self.bills.count):
            return
        sums = []
        for amount in (self.coins, self.bills):
            if amount.count:
                kept = Sum(amount.device)
                kept.units, kept.unvalued = amount.units, amount.unvalued
                sums.append((kept, self.values.decimals(amount.device)))
        self.press = {'acts': [act], 'sums': sums}
        self.presses.append(self.press)

    def out(self, act):
        """A payout or a sale for cash."""
        for press in self.presses:
            if self.time(act) - self.time(press['acts'][-1]) > 30_000_000:
                self.unpressed(press, 'time', None)
        self.presses, self.press = [], None
        self.cash = None
        self.coins, self.bills = Sum('changer'), Sum('bill')

    def unpressed(self, press, word, by):
        acts = press['acts']
        ends = [acts[0]] + ([acts[-1]] if acts[-1] is not acts[0] else [])
        self.put('lever', 'changer', ends, press['sums'], word, by, count=len(acts))

    def trouble(self, device, code, act):
        self.troubles.setdefault((device, code), []).append(act)

    def list(self):
        if self.choices:
            ends = self.choices[:1] + self.choices[1:][-1:]
            self.put('choice', 'changer', ends, [], count=len(self.choices))
        for (device, code), acts in self.orders.items():
            ends = acts[:1] + acts[1:][-1:]
            is_recycler, paid = code == 0x37, self.was_paid
            self.put('order', device, ends, [self.recycled] if is_recycler else [], None, self.paid_rows if is_recycler else None,
                     count=len(acts), code=code, paid=paid[0].field(paid[1]) if is_recycler and paid else None)
        for (device, code), acts in self.troubles.items():
            ends = [acts[0]] + ([acts[-1]] if acts[-1] is not acts[0] else [])
            self.put('trouble', device, ends, [], count=len(acts), code=code)
        key = lambda e: (e['rows'][0][0], KINDS.index(e['kind']), e['code'] or 0)
        return sorted(self.entries, key=key)


def acknowledged(acts, at):
    """Whether the controller acknowledges this reply, perhaps after a repeat."""
    for act in acts[at + 1:]:
        if act[2] == 'vmc-ack':
            return True
        if act[2] not in ('vmc-ret', 'repeat'):
            return False
    return False


def is_choice(rows, row):
    """Whether the row orders a payout by the changer's choice: 002 to 004 of the controller, right after its 10F."""
    if row < 2:
        return False
    (_, line, word), (_, before, first) = rows[row - 1], rows[row - 2]
    return (line == before == 'M' and int(first, 16) == 0x10F
            and int(word, 16) in (2, 3, 4))


def unfollowed_sale(rows, row):
    """The reader to which the row says a command of a sale that isn't followed."""
    if row < 2:
        return set()
    (_, line, word), (_, before, first) = rows[row - 1], rows[row - 2]
    if line != 'M' or before != 'M' or not 6 <= int(word, 16) <= 0xFF:
        return set()
    return {0x113: {'cashless'}, 0x163: {'cashless-2'}}.get(int(first, 16), set())


def orders_of(rows, acts):
    """The first rows of orders to pay out that aren't followed, each with the device and the code."""
    foreign = {row for act in acts if act[2] == 'foreign' for row in range(act[0], act[1] + 1)}
    hoppers = {0x15D: 0x58, 0x15E: 0x58, 0x175: 0x70, 0x176: 0x70}
    for row in sorted(foreign):
        _, line, word = rows[row - 1]
        word = int(word, 16) if line == 'M' else 0
        if word in hoppers:
            yield row, '', hoppers[word]
        if word == 0x137 and row + 1 in foreign and rows[row][1] == 'M' and int(rows[row][2], 16) in (6, 7):
            yield row, 'bill', 0x37


def ordered_of(rows, row):
    """What a recycler's order that begins in a row asks for: its second word, and up to three of the controller's after it."""
    words = []
    for _, line, word in rows[row:row + 4]:
        if line != 'M' or int(word, 16) > 0xFF:
            break
        words.append(int(word, 16))
    return words


def paid_of(rows, row):
    """What a recycler answers to PAYOUT STATUS, whose first row this is: the last row, and how many bills of each type."""
    if [row[1:] for row in rows[row - 1:row + 1]] != [['M', '137'], ['M', '008']]:
        return None
    at = row + 1
    if rows[at:at + 1] and rows[at][1] == 'M' and int(rows[at][2], 16) < 0x100:
        at += 1
    words = [int(word, 16) if line == 'S' else -1 for _, line, word in rows[at:at + 33]]
    if len(words) < 33 or not all(0 <= word <= 0xFF for word in words[:-1]) or words[-1] != 0x100 + sum(words[:-1]) % 256:
        return None
    return at + 33, [256 * high + low for high, low in zip(words[:-1:2], words[1:-1:2])]


def given(setups):
    """The data of --setup, without the sum, and of a reader without the message's first byte."""
    return {device: list(data[1 if device in READERS else 0:-1]) for device, data in setups.items()}


def parts_of(acts):
    """The parts of a recording: their acts, the word for their end, and the fault, if that ended them."""
    part = []
    for act in acts:
        if act[2] in ('fault', 'gap'):
            yield part, act[2], act if act[2] == 'fault' else None
            part = []
        else:
            part.append(act)
    yield part, 'end', None


def entries(rows, shown, setups=None, is_extended=False):
    """The entries of a recording, from its rows, the lines of `show`, and set-up data."""
    lines = [line.split(',') for line in rows.decode().splitlines() if line]
    reading = Reading([int(line[0]) for line in lines], given(setups or {}), is_extended)
    foreign = {row for act in acts_of(shown) if act[2] == 'foreign' for row in range(act[0], act[1] + 1)}
    for row in foreign:
        paid = paid_of(lines, row)
        if paid and paid[0] in foreign:
            reading.paid[row] = paid
    for row, device, code in orders_of(lines, acts_of(shown)):
        reading.orders.setdefault((device, code), []).append((row, row))
        if code == 0x37:
            reading.ordered[row] = ordered_of(lines, row)
    for acts, word, fault in parts_of(acts_of(shown)):
        reading.part(acts, word, fault)
        if fault and fault[3:] == ('controller', 'Profile') and is_choice(lines, fault[0]):
            reading.choices.append(fault)
        if fault and fault[3:] == ('controller', 'Profile'):
            reading.lost |= unfollowed_sale(lines, fault[0])
    return reading.list()


def main():
    setups, words = {}, sys.argv[1:]
    is_extended = words[:1] == ['--extended']
    words = words[is_extended:]
    while words and words[0] == '--setup':
        device, _, data = words[1].partition(' ')
        setups[device], words = bytes.fromhex(data), words[2:]
    rows, shown = (open(word, 'rb').read() for word in words)
    for entry in entries(rows, shown.decode().splitlines(), setups, is_extended):
        print(json.dumps(entry))


if __name__ == '__main__':
    main()
