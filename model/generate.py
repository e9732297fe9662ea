#!/usr/bin/env python3
"""Makes the recorded and the driven votes that the library is compared with.

Writes, into crates/replays,

  stdin   the vote files, each preceded by its length in four bytes,
          low byte first;
  stdout  what the model in model.c prints for them in batch mode;

and, into crates/drives,

  stdin   the table of driven votes, a line for each;
  stdout  what the model prints for it in the mode drives.

Everything is fixed: two runs write the same bytes. The rules of the vote are
written down here once more, over sets of heads and strings of bits, and the
listing they predict must be the model's for every recording and every driven
vote; if one differs, nothing is written.
"""

import collections
import os
import struct
import subprocess
import sys
import tempfile

HERE = os.path.dirname(os.path.abspath(__file__))
CRATES = os.path.join(os.path.dirname(HERE), "crates")
REPLAYS = os.path.join(CRATES, "replays")
DRIVES = os.path.join(CRATES, "drives")

SHORT, BIT, SPLIT = 1, 2, 3
VOTES = (SHORT, BIT, SPLIT)
VOTE_NAMES = {SHORT: "short", BIT: "bit", SPLIT: "split"}
RECIPE, TICKET = 1, 2
KINDS = (RECIPE, TICKET)
WIDTH = {RECIPE: 12, TICKET: 10}
ROUND_LIMIT = 10000


# ---------------------------------------------------------------------------
# The rules, read a third time
# ---------------------------------------------------------------------------

class Fault(Exception):
    def __init__(self, number, round_=None, head=None, other=None):
        super().__init__(number)
        self.number = number
        self.round = round_
        self.head = head
        self.other = other

    def line(self, byte):
        fields = (self.number, byte, self.round, self.head, self.other)
        return "F " + " ".join("-" if f is None else str(f) for f in fields)


def place(kind, code):
    """Sorts ballots of a kind: the ballot that comes first is the least."""
    if kind == RECIPE:
        return code
    grade, tank = divmod(code, 64)
    return (-grade, tank)


class Head:
    def __init__(self, kind, code):
        self.state = "r"
        self.bits = format(code, "0%db" % WIDTH[kind])  # of the first ballot
        self.estimate = code
        self.ballots = set()    # heard in the latest round of ballots
        self.alarmed = False    # in that round
        self.flag = False
        self.prefix = ""
        self.noise = False      # in the first round of a split step
        self.decision = None


class Vote:
    """A vote whose rounds are opened and heard in one call."""

    def __init__(self, method, kind, codes):
        self.method = method
        self.kind = kind
        self.width = WIDTH[kind]
        self.heads = [Head(kind, code) for code in codes]
        self.heard = 0

    def running(self):
        return {i for i, h in enumerate(self.heads) if h.state == "r"}

    def count(self, state):
        return sum(h.state == state for h in self.heads)

    def phase(self):
        """The place of the next round in its pair of rounds or its cycle."""
        if self.method == BIT:
            return self.heard % (self.width + 2)
        return self.heard % 2

    def is_ballot_round(self):
        return self.method != SPLIT and self.phase() == 0

    def sends(self, i, turns):
        head, phase = self.heads[i], self.phase()
        if self.method == SPLIT:
            return head.bits.startswith(head.prefix + "01"[phase])
        if phase == 0:
            return i in turns
        if self.method == SHORT:
            return head.alarmed or len(head.ballots) > 1
        if phase <= self.width:
            return format(head.estimate, "0%db" % self.width)[phase - 1] == "1"
        return not head.flag

    def senders(self, turns):
        return {i for i in self.running() if self.sends(i, turns)}

    def due(self, c, t):
        if c == 0:
            return False
        return t <= c / 2 if self.method == SHORT else t == 0

    def open(self, turns):
        this = self.heard + 1
        if self.heard >= ROUND_LIMIT:
            raise Fault(5, this)
        running = self.running()
        if not running:
            raise Fault(6, this)
        if turns - running:
            raise Fault(7, this, min(turns - running))
        return self.senders(turns)

    def check(self, senders, stops, alarms, words):
        this = self.heard + 1
        running = self.running()
        if stops - running:
            raise Fault(9, this, min(stops - running))
        for i in range(64):
            word = words[i] if i < len(words) else set()
            if i not in running:
                if word or i in alarms:
                    raise Fault(10, this, i)
                continue
            if word - senders:
                raise Fault(11, this, i, min(word - senders))
            if i in senders and i not in word:
                raise Fault(12, this, i)
            if self.due(len(senders), len(word)) and i not in alarms:
                raise Fault(13, this, i)
            if self.method == SPLIT and i in alarms and word == senders:
                raise Fault(14, this, i)

    def step(self, i, alarm, word, estimates):
        """What a running head that does not stop makes of its round."""
        head, phase = self.heads[i], self.phase()
        noise = alarm or bool(word)
        if self.method == SPLIT:
            if phase == 0:
                head.noise = noise
                return
            if head.noise:
                head.prefix += "0"
            elif noise:
                head.prefix += "1"
            else:
                head.prefix = ""
            if len(head.prefix) == self.width:
                head.state, head.decision = "d", int(head.prefix, 2)
        elif phase == 0:
            head.ballots = {estimates[j] for j in word}
            head.alarmed = alarm
            head.flag = True
            if head.ballots and not alarm:
                head.estimate = min(head.ballots,
                                    key=lambda code: place(self.kind, code))
        elif self.method == SHORT:
            if not noise and len(head.ballots) == 1:
                head.state, head.decision = "d", head.estimate
        elif phase <= self.width:
            if noise and not head.estimate >> (self.width - phase) & 1:
                head.flag = False
        elif not noise:
            head.state, head.decision = "d", head.estimate

    def round(self, turns, stops, alarms, words):
        """Opens and hears a round; answers its R line."""
        senders = self.open(turns)
        self.check(senders, stops, alarms, words)
        estimates = [h.estimate for h in self.heads]
        for i in self.running():
            if i in stops:
                self.heads[i].state = "s"
            else:
                self.step(i, i in alarms, words[i], estimates)
        self.heard += 1
        return "R %d %d %d %d %d" % (self.heard, len(senders), len(alarms),
                                     self.count("d"), self.count("r"))


def members(word):
    found = set()
    while word:
        low = word & -word
        found.add(low.bit_length() - 1)
        word ^= low
    return found


def word_of(heads):
    return sum(1 << i for i in heads)


def begin_from(data):
    """The vote of a file's header, and where its rounds start."""
    if len(data) < 5:
        raise Fault(20)
    if data[:2] != b"VH":
        raise Fault(21)
    method, kind, n = data[2:5]
    if method not in VOTES or kind not in KINDS or not 1 <= n <= 64:
        raise Fault(22)
    end = 5 + 2 * n
    if len(data) < end:
        raise Fault(20)
    codes = struct.unpack_from("<%dH" % n, data, 5)
    if any(code >= 2 ** WIDTH[kind] for code in codes):
        raise Fault(1)
    return Vote(method, kind, codes), end


def head_lines(vote):
    return ["H %d %s %s" % (i, head.state,
                            "-" if head.decision is None else head.decision)
            for i, head in enumerate(vote.heads)]


def listing(data):
    """The lines that a vote file must print."""
    lines = []
    at = 0
    try:
        vote, start = begin_from(data)
        at = start
        n = len(vote.heads)
        size = 26 + 8 * n
        while at < len(data):
            if at + size > len(data):
                raise Fault(20)
            if data[at:at + 2] != b"RD":
                raise Fault(21)
            sets = [members(w) for w in
                    struct.unpack_from("<%dQ" % (3 + n), data, at + 2)]
            turns, stops, alarms = sets[:3]
            lines.append(vote.round(turns, stops, alarms, sets[3:]))
            at += size
    except Fault as fault:
        return lines + [fault.line(at)]
    return lines + head_lines(vote)


# ---------------------------------------------------------------------------
# Making votes
# ---------------------------------------------------------------------------

class Dice:
    """A small generator of its own, so that no library change moves a bit."""

    def __init__(self, seed):
        self.state = seed

    def next(self):
        self.state = (self.state + 0x9E3779B97F4A7C15) % 2 ** 64
        z = self.state
        z = (z ^ z >> 30) * 0xBF58476D1CE4E5B9 % 2 ** 64
        z = (z ^ z >> 27) * 0x94D049BB133111EB % 2 ** 64
        return z ^ z >> 31

    def below(self, n):
        return self.next() % n

    def percent(self, p):
        return self.below(100) < p

    def one_of(self, things):
        things = sorted(things)
        return things[self.below(len(things))]

    def some_of(self, things, p):
        return {x for x in sorted(things) if self.percent(p)}


def header(method, kind, codes):
    return b"VH" + bytes((method, kind, len(codes))) + \
        struct.pack("<%dH" % len(codes), *codes)


def record(turns, stops, alarms, words):
    sets = [turns, stops, alarms] + list(words)
    return b"RD" + struct.pack("<%dQ" % len(sets), *map(word_of, sets))


# One round as it was written: its sets, and who ran and sent.
Round = collections.namedtuple(
    "Round", "turns stops alarms words running senders")


class Script:
    """A vote file in the making, played along as it grows."""

    def __init__(self, method, kind, codes):
        self.method, self.kind, self.codes = method, kind, list(codes)
        self.n = len(self.codes)
        self.vote = Vote(method, kind, self.codes)
        self.rounds = []

    def hear(self, turns=(), words=None, alarms=(), stops=()):
        """Adds a round that must be accepted; no words: all are heard."""
        turns, alarms, stops = set(turns), set(alarms), set(stops)
        running, senders = self.vote.running(), self.vote.senders(turns)
        if words is None:
            words = [senders if i in running else () for i in range(self.n)]
        words = [set(w) for w in words]
        self.vote.round(turns, stops, alarms, words)
        self.rounds.append(Round(turns, stops, alarms, words, running,
                                 senders))

    def head_bytes(self):
        return header(self.method, self.kind, self.codes)

    def records(self):
        return [record(*r[:4]) for r in self.rounds]

    def bytes(self):
        return self.head_bytes() + b"".join(self.records())

    def start_of(self, k):
        return 5 + 2 * self.n + k * (26 + 8 * self.n)


# Airs: the senders that hearer i hears besides itself.

def clear_channel(dice):
    return lambda i, senders: senders


def lossy_channel(dice, p=60):
    return lambda i, senders: dice.some_of(senders, p)


def capture_channel(dice):
    position = [dice.below(1000) for _ in range(64)]

    def heard(i, senders):
        others = senders - {i}
        if not others:
            return set()
        return {min(others, key=lambda j: (abs(position[i] - position[j]), j))}
    return heard


CHANNELS = {"clear": clear_channel, "lossy": lossy_channel, "capture": capture_channel}


def wild_round(script, dice, channel, extra, stopping, turns):
    """A round of uncertain reception: due alarms, extra ones, stops."""
    vote = script.vote
    running = vote.running()
    if turns == "all":
        chosen = running
    elif turns == "some":
        chosen = dice.some_of(running, 50)
    elif turns == "lone":
        chosen = {dice.one_of(running)}
    else:
        chosen = set()
    senders = vote.senders(chosen)
    c = len(senders)
    words, alarms = [], set()
    for i in range(script.n):
        if i not in running:
            words.append(set())
            continue
        word = set(channel(i, senders)) | ({i} & senders)
        words.append(word)
        may = vote.method != SPLIT or len(word) < c
        if vote.due(c, len(word)) or (may and dice.percent(extra)):
            alarms.add(i)
    script.hear(chosen, words, alarms, dice.some_of(running, stopping))


def wild_rounds(script, dice, channel, count, extra=10, stopping=0, turns="some"):
    for _ in range(count):
        if script.vote.running():
            wild_round(script, dice, channel, extra, stopping, turns)


def calm_to_the_end(script):
    """One turn, all heard, no alarm, until no head runs."""
    while script.vote.running():
        turn = {min(script.vote.running())}
        script.hear(turn)


def random_codes(dice, kind, n, few=False):
    """Ballots; few: only three different ones, so that heads agree often."""
    top = 2 ** WIDTH[kind]
    if few:
        bag = [dice.below(top) for _ in range(3)]
        return [bag[dice.below(3)] for _ in range(n)]
    return [dice.below(top) for _ in range(n)]


# ---------------------------------------------------------------------------
# The recordings
# ---------------------------------------------------------------------------

class Catalog:
    def __init__(self):
        self.entries = []       # (group, data)

    def add(self, group, data, fault=None):
        """Adds a recording; fault: the number it must end with, 0 for none."""
        if isinstance(data, Script):
            data = data.bytes()
        if fault is not None:
            last = listing(data)[-1].split()
            got = int(last[1]) if last[0] == "F" else 0
            if got != fault:
                sys.exit("error: %s: meant to meet %d, meets %d in round %s"
                         % (group, fault, got, last[3]))
        self.entries.append((group, bytes(data)))


def example():
    s = Script(SHORT, RECIPE, [41, 38])
    both = {0, 1}
    s.hear(both, [both, both])
    s.hear((), [both, both])
    s.hear({0}, [{0}, {0}])
    s.hear((), [(), ()])
    return s


def add_examples(cat):
    """The cases that the rules' description works through."""
    group = "worked examples"
    cat.add(group, example(), 0)

    head = header(SHORT, RECIPE, [41, 38])
    own = [{0}, {1}]
    cat.add(group, head + record({0, 1}, (), (), own), 13)
    cat.add(group, head + record({0, 1}, (), {0, 1}, own), 0)

    # A false alarm in a calm round: refused in split, heard in bit.
    cat.add(group, header(SPLIT, RECIPE, [5, 9]) +
            record((), (), {0}, [{0, 1}, {0, 1}]), 14)
    cat.add(group, header(BIT, RECIPE, [5, 9]) +
            record({0}, (), {1}, [{0}, {0}]), 0)

    s = Script(SPLIT, RECIPE, [5, 9])
    calm_to_the_end(s)
    assert s.vote.heard == 24
    cat.add(group, s, 0)

    s = Script(SPLIT, RECIPE, [5, 9])
    for _ in range(16):
        s.hear()
    s.hear(stops={0})
    calm_to_the_end(s)
    assert s.vote.heard == 44 and s.vote.heads[1].decision == 9
    cat.add(group, s, 0)

    # Of tickets 3/5 and 7/60 the second comes first.
    for method in (SHORT, BIT):
        s = Script(method, TICKET, [3 * 64 + 5, 7 * 64 + 60])
        s.hear({0, 1})
        calm_to_the_end(s)
        assert s.vote.heads[0].decision == 508
        cat.add(group, s, 0)


def add_headers(cat):
    group = "headers"
    # Header alone: nothing played, all heads run.
    for method in VOTES:
        for kind in KINDS:
            for n in (1, 64):
                top = 2 ** WIDTH[kind] - 1
                cat.add(group, header(method, kind, [top] + [0] * (n - 1)), 0)

    def spoilt(at, byte, method=SHORT, kind=RECIPE):
        data = bytearray(example().bytes())
        data[2], data[3], data[at] = method, kind, byte
        return data

    for method in VOTES:
        cat.add(group, spoilt(0, 0x57, method), 21)
        cat.add(group, spoilt(1, 0x49, method), 21)
        for byte in (0, 3, 255):
            cat.add(group, spoilt(3, byte, method), 22)
        for byte in (0, 65, 255):
            cat.add(group, spoilt(4, byte, method), 22)
        # A bad header that also ends early, mark before range before end.
        cat.add(group, b"VH" + bytes((method, 1, 65)), 22)
        cat.add(group, b"VX" + bytes((method, 3, 0)), 21)
        cat.add(group, b"XH" + bytes((method, 1)), 20)
        cat.add(group, b"VH" + bytes((method, 2, 64)), 20)
    for byte in (0, 4, 255):
        cat.add(group, spoilt(2, byte), 22)
    cat.add(group, b"HV" + spoilt(2, 1)[2:], 21)
    cat.add(group, b"RD" + spoilt(2, 1)[2:], 21)

    group = "ballots beyond their range"
    for method in VOTES:
        for kind, bad in ((RECIPE, 4096), (RECIPE, 65535),
                          (TICKET, 1024), (TICKET, 4095)):
            for at in (0, 2, 4):
                codes = [7, 300, 41, 0, 1000]
                codes[at] = bad
                data = header(method, kind, codes)
                if at == 2:     # rounds that must not be played
                    data += record((), (), (), [()] * 5)
                cat.add(group, data, 1)
        # The codes end early: that is found before the range.
        cat.add(group, header(method, RECIPE, [4096, 1, 2])[:-1], 20)
        # Both ends of the ranges are taken.
        for kind in KINDS:
            s = Script(method, kind, [2 ** WIDTH[kind] - 1, 0])
            if method != SPLIT:
                s.hear({0, 1})
            calm_to_the_end(s)
            cat.add(group, s, 0)


def add_cuts(cat):
    """A file of two heads and two rounds, cut at every byte."""
    data = Script(SHORT, RECIPE, [41, 38])
    data.hear({0, 1})
    data.hear()
    data = data.bytes()
    whole = {0: 20, 9: 0, 9 + 42: 0, 9 + 84: 0}
    for size in range(len(data) + 1):
        cat.add("cut at every byte", data[:size], whole.get(size, 20))


SIZES = (1, 2, 3, 5, 8, 12, 33, 63, 64)


def add_votes(cat):
    """Whole votes: every method, kind, size and channel, most of them decided."""
    dice = Dice(2)
    for method in VOTES:
        for kind in KINDS:
            for n in SIZES:
                # one channel is enough for 63 heads: these files are large
                names = sorted(CHANNELS)
                if n == 63:
                    names = [names[(method + kind) % 3]]
                for name in names:
                    few = dice.percent(40)
                    s = Script(method, kind, random_codes(dice, kind, n, few))
                    stopping = dice.one_of((0, 0, 2, 5))
                    turns = dice.one_of(("all", "some", "lone"))
                    wild = {SHORT: 6, BIT: WIDTH[kind] + 2, SPLIT: 8}[method]
                    channel = CHANNELS[name](dice)
                    wild_rounds(s, dice, channel, wild, 10, stopping, turns)
                    calm_to_the_end(s)
                    # A further round is refused, and no turn is looked at.
                    data = s.bytes()
                    fault = 0
                    if n in (2, 5, 33):
                        turn = {0} if n == 5 else ()
                        data += record(turn, (), (), [()] * n)
                        fault = 6
                    cat.add("whole votes, " + name + " channel", data, fault)

    # Rolls of every other size, briefly.
    for n in range(1, 65):
        if n in SIZES:
            continue
        method = VOTES[n % 3]
        kind = KINDS[n // 3 % 2]
        s = Script(method, kind, random_codes(dice, kind, n))
        wild_rounds(s, dice, lossy_channel(dice, 70), 3, 5, 3)
        if method == SHORT or n < 16:
            calm_to_the_end(s)
        cat.add("rolls of other sizes", s, 0)


def add_stops(cat):
    """Heads that stop: all of them, the sender, the decider, the vetoer."""
    group = "stops"
    dice = Dice(3)
    for method in VOTES:
        for kind in KINDS:
            # All stop, at once or one by one; then no head runs.
            s = Script(method, kind, random_codes(dice, kind, 4))
            s.hear({1}, stops={0, 1, 2, 3})
            cat.add(group, s, 0)
            cat.add(group, s.bytes() + record((), (), (), [()] * 4), 6)
            s = Script(method, kind, random_codes(dice, kind, 4))
            for i in (2, 0, 3, 1):
                # alarms keep the heads of a short vote from deciding
                alarms = s.vote.running() if method == SHORT else ()
                s.hear({i}, None, alarms, {i})
            cat.add(group, s.bytes() + record({3}, {3}, (), [()] * 4), 6)
            # Many stop under losses.
            for _ in range(3):
                s = Script(method, kind, random_codes(dice, kind, 9))
                wild_rounds(s, dice, lossy_channel(dice), 30, 15, 6, "all")
                calm_to_the_end(s)
                cat.add(group, s, 0)
            # Stops in the very round in which the others decide.
            s = Script(method, kind, random_codes(dice, kind, 6))
            calm_to_the_end(s)
            again = Script(method, kind, s.codes)
            for r in s.rounds[:-1]:
                again.hear(r.turns, r.words, r.alarms)
            r = s.rounds[-1]
            again.hear(r.turns, r.words, r.alarms, {0, 5})
            cat.add(group, again, 0)
    # A stopping head's report is checked like any other.
    for method in VOTES:
        s = Script(method, RECIPE, [0, 1, 4095])
        deaf = [{0, 1}, {0, 1}, ()]
        head = s.head_bytes()
        cat.add(group, head + record({0, 1}, {2}, (), deaf), 13)
        cat.add(group, head + record({0, 1}, {2}, {2}, deaf), 0)
        cat.add(group, head + record({0, 1}, {0}, (), [{1}, {0, 1}, {0, 1}]),
                12)


def add_half(cat):
    """The edge of the majority: half or fewer of c messages are too few."""
    group = "half of the messages"
    for c in (1, 2, 3, 4, 5, 6, 7, 12, 31, 32, 63):
        n = c + 1               # the last head listens only
        senders = set(range(c))
        codes = [100 + i for i in range(n)]
        for t in sorted({0, c // 2, c // 2 + 1}):
            words = [senders] * c + [set(range(t))]
            data = header(SHORT, RECIPE, codes)
            good = 2 * t > c
            cat.add(group, data + record(senders, (), (), words),
                    0 if good else 13)
            if not good:
                cat.add(group, data + record(senders, (), {c}, words), 0)
        # In the other votes one message is enough, none is not.
        for t in (0, 1):
            words = [senders] * c + [set(range(t))]
            data = header(BIT, RECIPE, codes)
            cat.add(group, data + record(senders, (), (), words),
                    0 if t else 13)
            codes_split = [1] * c + [4000]
            data = header(SPLIT, RECIPE, codes_split)
            cat.add(group, data + record((), (), (), words), 0 if t else 13)
    # The sender itself hears too little.
    for c in (2, 3, 4):
        senders = set(range(c))
        words = [senders] * (c - 1) + [{c - 1}]
        data = header(SHORT, TICKET, [64 * i for i in range(c)])
        cat.add(group, data + record(senders, (), (), words), 13)
        cat.add(group, data + record(senders, (), {c - 1}, words), 0)
    # The same edge among vetoes.
    for heard in (1, 2):
        s = Script(SHORT, RECIPE, [1, 2, 3, 4])
        s.hear({0, 1}, [{0, 1}] * 3 + [{0, 1}], {0, 1, 2})
        # all four veto now: each heard two different ballots
        words = [{0, 1, 2, 3}] * 3 + [{3} | set(range(heard))]
        data = s.bytes() + record((), (), (), words)
        cat.add(group, data, 13 if heard == 1 else 0)

    # Twelve heads, two halves of six that hear only one another.
    for kind in KINDS:
        codes = [300] * 6 + [200] * 6
        everyone = set(range(12))
        halves = [set(range(6))] * 6 + [set(range(6, 12))] * 6
        head = header(SHORT, kind, codes)
        silent = record((), (), (), [()] * 12)
        cat.add(group, head + record(everyone, (), (), halves) + silent, 13)
        # Half of the alarms missing: the first head without one is named.
        cat.add(group, head + record(everyone, (), set(range(6)), halves) +
                silent, 13)
        s = Script(SHORT, kind, codes)
        s.hear(everyone, halves, everyone)
        s.hear((), halves, everyone)
        calm_to_the_end(s)
        cat.add(group, s, 0)
        s = Script(BIT, kind, codes)
        s.hear(everyone, halves)
        calm_to_the_end(s)
        cat.add(group, s, 0)
        # Seven of twelve are enough.
        s = Script(SHORT, kind, codes)
        words = [set(range(7))] * 7 + [set(range(5, 12))] * 5
        s.hear(everyone, words)
        s.hear()
        calm_to_the_end(s)
        cat.add(group, s, 0)


def add_alarms(cat):
    """False alarms in short and bit votes keep heads from deciding."""
    group = "extra alarms"
    dice = Dice(5)
    for method in (SHORT, BIT):
        for kind in KINDS:
            for extra in (5, 30, 100):
                s = Script(method, kind, random_codes(dice, kind, 5))
                wild_rounds(s, dice, clear_channel(dice), 3 * (WIDTH[kind] + 2),
                            extra, 0, "lone")
                calm_to_the_end(s)
                cat.add(group, s, 0)
    # Split votes: alarms beside messages heard, as long as one is missed.
    for kind in KINDS:
        for extra in (50, 100):
            s = Script(SPLIT, kind, random_codes(dice, kind, 8, True))
            wild_rounds(s, dice, lossy_channel(dice, 40), 2000, extra)
            cat.add(group, s, 0)


def add_long(cat):
    """Several hundred rounds with few heads, and the limit of rounds."""
    dice = Dice(7)
    group = "long votes"
    for n, rounds in ((1, 300), (2, 400), (3, 300), (5, 300)):
        for method in (SHORT, BIT):
            for name in ("lossy", "capture")[:n]:
                kind = dice.one_of(KINDS)
                s = Script(method, kind, random_codes(dice, kind, n))
                channel = CHANNELS[name](dice)
                veto = {SHORT: 1, BIT: WIDTH[kind] + 1}[method]
                while s.vote.heard < rounds:
                    # alarms where heads could decide keep the vote going
                    extra = 100 if s.vote.phase() == veto else 15
                    wild_round(s, dice, channel, extra, 0, "some")
                calm_to_the_end(s)
                cat.add(group, s, 0)
    # The longest split votes: each descent fails at its last step, since its
    # last follower stops there.
    for n, kind in ((5, RECIPE), (12, RECIPE), (16, TICKET)):
        w = WIDTH[kind]
        codes = [2 * i for i in range(n)]
        s = Script(SPLIT, kind, codes)
        while len(s.vote.running()) > 1:
            at = s.vote.heard % (2 * w)
            stop = {min(s.vote.running())} if at == 2 * w - 3 else ()
            s.hear(stops=stop)
        calm_to_the_end(s)
        assert s.vote.heard == 2 * w * n
        data = s.bytes() + record((), (), (), [()] * n)
        cat.add(group, data, 6)

    group = "10,000 rounds"
    # A silent short vote: the round after the last one is refused.
    s = Script(SHORT, RECIPE, [17])
    for _ in range(ROUND_LIMIT):
        s.hear()
    cat.add(group, s.bytes() + record((), (), (), [()]), 5)
    # Decided in round 10,000.
    s = Script(SHORT, TICKET, [1023])
    for _ in range(ROUND_LIMIT - 2):
        s.hear()
    calm_to_the_end(s)
    assert s.vote.heard == ROUND_LIMIT
    cat.add(group, s, 0)
    # A bit vote held up by an alarm in each veto round. Its head stops in
    # round 10,000, so the next round also lacks a running head.
    s = Script(BIT, RECIPE, [1365])
    for k in range(ROUND_LIMIT):
        alarms = {0} if s.vote.phase() == 13 else ()
        s.hear((), None, alarms, {0} if k == ROUND_LIMIT - 1 else ())
    cat.add(group, s.bytes() + record({0}, (), (), [()]), 5)


# Damages: each takes a round and answers its spoilt copy, or None where the
# fault cannot come up in that round.

def damage_7(r, n, dice):
    gone = set(range(64)) - r.running
    return r._replace(turns=r.turns | {min(gone), dice.one_of(gone)})


def damage_9(r, n, dice):
    gone = set(range(64)) - r.running
    return r._replace(stops=r.stops | {min(gone), dice.one_of(gone)})


def damage_10_alarm_beyond(r, n, dice):
    return r._replace(alarms=r.alarms | {dice.one_of((n, 40, 63))})


def damage_10_word(r, n, dice):
    gone = set(range(n)) - r.running
    if not gone:
        return None
    words = list(r.words)
    words[dice.one_of(gone)] = r.senders or {0}
    return r._replace(words=words)


def damage_10_alarm(r, n, dice):
    gone = set(range(n)) - r.running
    if not gone:
        return None
    return r._replace(alarms=r.alarms | {dice.one_of(gone)})


def damage_11(r, n, dice):
    quiet = set(range(64)) - r.senders
    hearer = dice.one_of(r.running)
    words = list(r.words)
    words[hearer] = words[hearer] | {dice.one_of(quiet), dice.one_of(quiet),
                                     dice.one_of((n, 63))}
    return r._replace(words=words)


def damage_11_roll(r, n, dice):
    quiet = set(range(n)) - r.senders
    if not quiet:
        return None
    words = list(r.words)
    hearer = max(r.running)
    words[hearer] = words[hearer] | quiet
    return r._replace(words=words)


def damage_12(r, n, dice):
    if not r.senders:
        return None
    sender = dice.one_of(r.senders)
    words = list(r.words)
    words[sender] = words[sender] - {sender}
    return r._replace(words=words)


def damage_13(r, n, dice, method):
    """A head hears too little and is not alarmed."""
    c = len(r.senders)
    words = list(r.words)
    if method == SHORT and c > 1:
        hearer = dice.one_of(r.running)
        enough = {hearer} & r.senders
        for j in sorted(r.senders - {hearer}):
            if len(enough) < c // 2:
                enough = enough | {j}
        words[hearer] = enough
    else:
        listeners = r.running - r.senders
        if not c or not listeners:
            return None
        hearer = dice.one_of(listeners)
        words[hearer] = set()
    return r._replace(words=words, alarms=r.alarms - {hearer})


def damage_14(r, n, dice):
    hearer = dice.one_of(r.running)
    words = list(r.words)
    words[hearer] = r.senders
    return r._replace(words=words, alarms=r.alarms | {hearer})


DAMAGES = [(7, damage_7), (9, damage_9), (10, damage_10_alarm_beyond),
           (10, damage_10_word), (10, damage_10_alarm), (11, damage_11),
           (11, damage_11_roll), (12, damage_12), (13, damage_13),
           (14, damage_14)]


def damage_base(dice, method, kind, n):
    """A vote with losses, alarms and a stop, decided in the end."""
    width = WIDTH[kind]
    if method == SPLIT:
        # ballots that differ in the last, a middle and the first bit, so
        # that some heads send and others listen in all parts of the vote
        middle, first = 1 << width // 2, 1 << width - 1
        base = dice.below(first) & ~(middle | 1)
        codes = [base + (1 if i % 2 else 0) + (middle if i % 4 > 1 else 0) +
                 (first if i > 3 else 0) for i in range(n)]
    else:
        codes = random_codes(dice, kind, n)
    s = Script(method, kind, codes)
    channel = lossy_channel(dice, 70)
    wild_round(s, dice, channel, 10, 0, "all")
    s.hear(stops={dice.below(n)})
    wild_rounds(s, dice, channel, 4 if method == SHORT else 3, 10, 0, "all")
    while method == SHORT and s.vote.heard < 4:
        wild_round(s, dice, channel, 10, 0, "all")
    calm_to_the_end(s)
    return s


def from_first(count):
    return range(count)


def from_middle(count):
    return sorted(range(count), key=lambda k: (abs(k - count // 2), k))


def from_last(count):
    return range(count - 1, -1, -1)


def add_damages(cat):
    """Each fault of a round, in the first, a middle and the last round in
    which it can come up. The rounds after it stay in the file."""
    dice = Dice(11)
    for method in VOTES:
        for number, damage in DAMAGES:
            if number == 14 and method != SPLIT:
                continue
            for order in (from_first, from_middle, from_last):
                for kind in KINDS:
                    n = dice.one_of((3, 4, 5, 7))
                    bad = None
                    while bad is None:
                        s = damage_base(dice, method, kind, n)
                        for k in order(len(s.rounds)):
                            args = (method,) if number == 13 else ()
                            bad = damage(s.rounds[k], n, dice, *args)
                            if bad is not None:
                                break
                    parts = s.records()
                    parts[k] = record(*bad[:4])
                    data = s.head_bytes() + b"".join(parts)
                    cat.add("damaged rounds", data, number)
        # Marks and cuts.
        for order in (from_first, from_middle, from_last):
            s = damage_base(dice, method, RECIPE, 4)
            k = order(len(s.rounds))[0]
            at = s.start_of(k)
            for byte in (0, 1):
                data = bytearray(s.bytes())
                data[at + byte] ^= 1 << dice.below(8)
                cat.add("damaged rounds", data, 21)
            for more in (1, 26, 26 + 8 * 4 - 1):
                cat.add("damaged rounds", s.bytes()[:at + more], 20)
            # A wrong mark in a record that is cut: the cut is found first.
            data = bytearray(s.bytes()[:at + 30])
            data[at] = 0
            cat.add("damaged rounds", data, 20)
        # After the end: mark and cut come before the missing heads.
        s = damage_base(dice, method, TICKET, 3)
        further = record({0, 9}, {1}, {2, 20}, [{1}, (), ()])
        cat.add("damaged rounds", s.bytes() + further, 6)
        cat.add("damaged rounds", s.bytes() + b"VH" + further[2:], 21)
        cat.add("damaged rounds", s.bytes() + further[:-1], 20)
        # No byte may follow the last record.
        cat.add("damaged rounds", s.bytes() + b"\n", 20)


def add_order(cat):
    """Rounds with several faults: the first check, then the lowest head."""
    group = "order of checks"
    for method in VOTES:
        # Heads 0 to 3; head 1 stopped in round 1. Whatever the turns, the
        # next round of a vote has heads 2 and 3 as its senders.
        if method == SPLIT:
            s = Script(SPLIT, RECIPE, [0, 0, 2048, 2049])
            s.hear(stops={1})
        elif method == BIT:
            s = Script(BIT, RECIPE, [0, 0, 2048, 2049])
            s.hear(stops={1})
        else:
            s = Script(SHORT, RECIPE, [0, 0, 7, 8])
            s.hear({0}, [{0}, {0}, {0}, {0}], {2, 3}, {1})
        assert s.vote.senders(set()) == {2, 3}
        head = s.bytes()
        all_heard = [{2, 3}, (), {2, 3}, {2, 3}]

        def words(**changes):
            spoilt = list(all_heard)
            for name, word in changes.items():
                spoilt[int(name[1:])] = word
            return spoilt

        cases = [
            # turns before stops, the lowest head of each
            (7, {1, 50}, {1}, {63}, words(h0={0})),
            (7, {4, 63}, {1}, (), all_heard),
            (9, {0}, {1, 4}, {1}, words(h0={0})),
            (9, (), {64 - 1}, (), words(h1={3})),
            # head by head: head 0's later check before head 1's first one
            (13, (), (), {1}, words(h0=())),
            (11, (), (), {1, 5}, words(h0={1, 0, 2})),
            (10, (), (), {4, 63}, all_heard),
            (10, (), (), {1}, words(h2={3})),
            (10, (), (), (), words(h1={2}, h2={3}, h3=())),
            # numbers beyond the roll come last
            (12, (), (), {4}, words(h2={3})),
            (12, (), (), {4}, words(h2={3}, h3={2})),
            (11, (), (), {63}, words(h3={3, 4, 40, 63})),
            # one head: 11 before 12 before 13
            (11, (), (), (), words(h2={3, 1, 0})),
            (11, (), (), (), words(h2={1, 60})),
            (12, (), (), (), words(h2=())),
            (12, (), {2}, {2}, words(h2=())),
            (12, (), (), (), words(h3=())),
        ]
        for number, turns, stops, alarms, spoilt in cases:
            cat.add(group, head + record(turns, stops, alarms, spoilt),
                    number)
        if method == SPLIT:
            cat.add(group, head + record((), (), {0, 1}, all_heard), 14)
            cat.add(group, head + record((), (), {3}, words(h2={2})), 14)
            cat.add(group, head + record((), (), {3, 4}, words(h0={2})), 14)
            # one message of two missed: no alarm due, none false
            cat.add(group, head + record((), (), {0}, words(h0={2})), 0)
            cat.add(group, head + record((), (), (), words(h0={2})), 0)
            # a silent round's alarm is false too
            s = Script(SPLIT, TICKET, [0, 1])
            s.hear()
            cat.add(group, s.bytes() + record((), (), {1}, [(), ()]), 14)


def add_decided_heads(cat):
    """Heads that have decided while another one still runs."""
    group = "decided beside running heads"
    for method in (SHORT, BIT):
        for kind in KINDS:
            s = Script(method, kind, [5, 6, 7])
            last = {SHORT: 1, BIT: WIDTH[kind] + 1}[method]
            s.hear({1})
            while s.vote.phase() != last:
                s.hear()
            s.hear(alarms={2})
            assert s.vote.running() == {2} and s.vote.count("d") == 2
            data = s.bytes()
            own = [(), (), {2}]
            for number, turns, stops, alarms, words in (
                    (7, {1, 2}, (), (), own),
                    (9, {2}, {0, 2}, (), own),
                    (10, {2}, (), (), [{2}, (), {2}]),
                    (10, {2}, (), (), [(), {1}, ()]),
                    (10, {2}, (), {1}, own),
                    (10, {2}, (), {0, 1, 2}, [(), (), ()]),
                    (11, {2}, (), (), [(), (), {0, 1, 2}]),
                    (12, {2}, (), {2}, [(), (), ()])):
                cat.add(group, data + record(turns, stops, alarms, words),
                        number)
            calm_to_the_end(s)
            cat.add(group, s, 0)
            cat.add(group, s.bytes() + record((), (), (), [()] * 3), 6)


def add_full_roll(cat):
    """Faults at the last of 64 heads and at the only one."""
    group = "first and last numbers"
    for method in VOTES:
        codes = [0] + [4095] * 62 + [0]
        head = header(method, RECIPE, codes)
        turns = {0, 63}         # the senders in a split vote too
        heard = [{0, 63}] * 64
        deaf_62 = heard[:62] + [set(), {0, 63}]
        cat.add(group, head + record(turns, (), (), heard), 0)
        cat.add(group, head + record(turns, (), (),
                                     heard[:63] + [{0, 62, 63}]), 11)
        cat.add(group, head + record(turns, (), (), heard[:63] + [{0}]), 12)
        cat.add(group, head + record(turns, (), (), deaf_62), 13)
        cat.add(group, head + record(turns, (), {62}, deaf_62), 0)
        cat.add(group, head + record(turns, (), {63}, heard),
                14 if method == SPLIT else 0)
        # Head 63 stops, and then has a turn, a stop, a word or an alarm.
        s = Script(method, RECIPE, codes)
        s.hear(turns, stops={63})
        senders = s.vote.senders(set())
        words = [senders] * 63 + [set()]
        for number, sets in ((7, ({63}, (), ())), (9, ((), {63}, ())),
                             (10, ((), (), {63})), (0, ((), (), ()))):
            cat.add(group, s.bytes() + record(*sets, words), number)
        cat.add(group, s.bytes() + record((), (), (), words[:63] + [{62}]),
                10)

        head = header(method, RECIPE, [0])
        cat.add(group, head + record({0}, (), (), [{0}]), 0)
        cat.add(group, head + record({1}, (), (), [{0}]), 7)
        cat.add(group, head + record({0}, {0, 1}, (), [{0}]), 9)
        cat.add(group, head + record({0}, (), {1}, [{0}]), 10)
        cat.add(group, head + record({0}, (), (), [{0, 1}]), 11)
        cat.add(group, head + record({0}, (), (), [()]), 12)
        cat.add(group, head + record({0}, (), {0}, [{0}]),
                14 if method == SPLIT else 0)


def add_flips(cat):
    """Sound votes with a few bits turned over."""
    dice = Dice(13)
    for k in range(96):
        method = VOTES[k % 3]
        kind = KINDS[k // 3 % 2]
        n = dice.one_of((1, 2, 3, 4, 6))
        s = Script(method, kind, random_codes(dice, kind, n, True))
        wild_rounds(s, dice, lossy_channel(dice, 80), 10, 10, 2)
        calm_to_the_end(s)
        data = bytearray(s.bytes())
        for _ in range(1 + dice.below(3)):
            data[dice.below(len(data))] ^= 1 << dice.below(8)
        if dice.percent(20):
            del data[dice.below(len(data)):]
        cat.add("bits turned over", data)


def catalog():
    cat = Catalog()
    add_examples(cat)
    add_headers(cat)
    add_cuts(cat)
    add_votes(cat)
    add_stops(cat)
    add_half(cat)
    add_alarms(cat)
    add_long(cat)
    add_damages(cat)
    add_order(cat)
    add_decided_heads(cat)
    add_full_roll(cat)
    add_flips(cat)
    return cat.entries


# ---------------------------------------------------------------------------
# Driven votes: their rules
# ---------------------------------------------------------------------------

CLEAR, CAPTURE, RECORDED = 1, 2, 3
AIRS = (CLEAR, CAPTURE, RECORDED)
COUNTING, SQUELCH, RECORDED_ZERO, RECORDED_MAJORITY = 1, 2, 3, 4
DETECTORS = (COUNTING, SQUELCH, RECORDED_ZERO, RECORDED_MAJORITY)
LOWEST, ROTATION, EVERYONE = 1, 2, 3
MANAGERS = (LOWEST, ROTATION)

# A channel or a detector: its kind, its list of numbers, for recorded air the
# heads of a round, and its layers, the upper one first, each a list of spells.
Part = collections.namedtuple("Part", "kind list n layers")

# settings: round -> (stops, records, words)
Drive = collections.namedtuple(
    "Drive", "method kind codes air detector manager drivings settings")


def air(kind=CLEAR, numbers=(), n=None, layers=()):
    return Part(kind, list(numbers), n, [list(layer) for layer in layers])


def detector(kind=COUNTING, numbers=(), layers=()):
    return Part(kind, list(numbers), None, [list(layer) for layer in layers])


def counted(numbers):
    return [len(numbers)] + list(numbers)


def part_numbers(part, listed):
    numbers = [len(part.layers)]
    for layer in part.layers:
        numbers += [len(layer)] + [r for spell in layer for r in spell]
    numbers.append(part.kind)
    if part.n is not None:
        numbers.append(part.n)
    return numbers + (counted(part.list) if listed else [])


def drive_line(d):
    """The line of the table."""
    numbers = [d.method, d.kind] + counted(d.codes)
    numbers += part_numbers(d.air, d.air.kind != CLEAR)
    numbers += part_numbers(d.detector, d.detector.kind >= RECORDED_ZERO)
    numbers += [d.manager, d.drivings, len(d.settings)]
    for round_, (stops, records, words) in sorted(d.settings.items()):
        numbers += [round_, word_of(stops), records, words]
    return " ".join(map(str, numbers)) + "\n"


def spell_fits(spell):
    return 1 <= spell[0] <= spell[1] <= ROUND_LIMIT


def part_fits(part, is_air):
    for layer in part.layers:
        if len(layer) > 16 or not all(map(spell_fits, layer)):
            return False
    if not is_air:
        return len(part.list) <= ROUND_LIMIT
    if part.kind == CAPTURE:
        return 1 <= len(part.list) <= 64 and max(part.list) <= 999
    if part.kind == RECORDED:
        return part.n in range(1, 65) and len(part.list) % part.n == 0 and \
            len(part.list) // part.n <= ROUND_LIMIT
    return True


def disturbed(part, round_):
    return any(round_ in range(first, last + 1)
               for layer in part.layers for first, last in layer)


def hears(part, round_, hearer, senders):
    """Those of the senders that the hearer hears."""
    own = senders & {hearer}
    if disturbed(part, round_):
        return own
    if part.kind == CAPTURE:
        place_of = dict(enumerate(part.list))
        here = place_of.get(hearer, 0)
        others = sorted((abs(place_of.get(j, 0) - here), j)
                        for j in senders - own)
        return own | {j for _, j in others[:1]}
    if part.kind == RECORDED:
        rounds = [part.list[k:k + part.n]
                  for k in range(0, len(part.list), part.n)]
        if round_ <= len(rounds):
            words = rounds[round_ - 1]
            word = members(words[hearer]) if hearer < part.n else set()
            return own | (senders & word)
    return set(senders)


def alarms(part, round_, head, c, t):
    """Whether the head is alarmed that heard t of c messages."""
    if disturbed(part, round_):
        return True
    if part.kind == COUNTING:
        return t != c
    deaf = bool(c) and not t
    if part.kind in (SQUELCH, RECORDED_ZERO) and deaf:
        return True
    if part.kind == RECORDED_MAJORITY and c and t <= c / 2:
        return True
    if part.kind == SQUELCH:
        return False
    return round_ <= len(part.list) and head in members(part.list[round_ - 1])


def turn(manager, told, running):
    if manager == EVERYONE or not running:
        return set(running)
    start = told % 64 if manager == ROTATION else 0
    return {min(running, key=lambda i: (i - start) % 64)}


class Driving:
    """A driven vote, from its roll on."""

    def __init__(self, d):
        self.d = d
        self.told = 0
        for i, code in enumerate(d.codes):
            if code >= 2 ** WIDTH[d.kind]:
                raise Fault(1)
            if i == 64:
                raise Fault(2)
        if not d.codes:
            raise Fault(3)
        self.vote = Vote(d.method, d.kind, d.codes)
        if not part_fits(d.air, True) or not part_fits(d.detector, False):
            raise Fault(17)

    def round(self):
        """Drives a round; answers its R line."""
        vote, d = self.vote, self.d
        this, n = vote.heard + 1, len(vote.heads)
        stops, records, words = d.settings.get(this, (set(), n, n))
        if records < n:
            raise Fault(4)
        if words != n:
            raise Fault(8, this)
        running = vote.running()
        turns = turn(d.manager, self.told, running)
        senders = vote.senders(turns)
        heard = [hears(d.air, this, i, senders) if i in running else set()
                 for i in range(n)]
        alarmed = {i for i in running
                   if alarms(d.detector, this, i, len(senders), len(heard[i]))}
        line = vote.round(turns, set(stops), alarmed, heard)
        self.told = this
        return line


def drive_listing(d):
    """The lines that a driven vote must print."""
    lines = []
    try:
        driving = Driving(d)
        for _ in range(d.drivings):
            lines.append(driving.round())
    except Fault as fault:
        return lines + [fault.line(None)]
    return lines + head_lines(driving.vote)


def rounds_to_end(d, limit):
    """How many rounds are driven until no head runs, a refusal or the limit."""
    driving = Driving(d)
    try:
        while driving.vote.heard < limit and driving.vote.running():
            driving.round()
    except Fault:
        return driving.vote.heard + 1
    return driving.vote.heard


# ---------------------------------------------------------------------------
# The driven votes
# ---------------------------------------------------------------------------

class Table:
    def __init__(self):
        self.entries = []       # (group, Drive)

    def add(self, group, d, fault=None):
        """Adds a vote; fault: the number it must end with, 0 for none."""
        if fault is not None:
            last = drive_listing(d)[-1].split()
            got = int(last[1]) if last[0] == "F" else 0
            if got != fault:
                sys.exit("error: %s: meant to meet %d, meets %d"
                         % (group, fault, got))
        self.entries.append((group, d))


def some_spells(dice, latest, most=3):
    spells = []
    for _ in range(1 + dice.below(most)):
        first = 1 + dice.below(latest)
        spells.append((first, min(latest, first + dice.below(4))))
    return spells


def some_layers(dice, count, latest):
    return [some_spells(dice, latest) for _ in range(count)]


def some_air(dice, kind, n, layers=(), rounds=None):
    if kind == CAPTURE:
        spread = dice.one_of((3, 20, 1000))
        return air(kind, [dice.below(spread) for _ in range(n)], None, layers)
    if kind == RECORDED:
        rounds = dice.below(12) if rounds is None else rounds
        p = dice.one_of((20, 50, 80))
        return air(kind, [word_of(dice.some_of(range(64), p))
                          for _ in range(n * rounds)], n, layers)
    return air(kind, (), None, layers)


def some_detector(dice, kind, layers=(), p=20, rounds=None):
    rounds = dice.below(12) if rounds is None else rounds
    numbers = []
    if kind >= RECORDED_ZERO:
        numbers = [word_of(dice.some_of(range(64), p)) for _ in range(rounds)]
    return detector(kind, numbers, layers)


def whole(method, kind, codes, air_, detector_, manager=LOWEST, settings=None,
          limit=200, more=0):
    """A vote driven until no head runs, a refusal or the limit, and on."""
    d = Drive(method, kind, codes, air_, detector_, manager, 0, settings or {})
    return d._replace(drivings=rounds_to_end(d, limit) + more)


def long_enough(method, kind):
    return {SHORT: 30, BIT: 5 * (WIDTH[kind] + 2), SPLIT: 200}[method]


def add_parts(table):
    """Every channel with every detector, bare, in every vote and kind."""
    dice = Dice(21)
    sizes = (1, 2, 3, 4, 5, 8, 12)
    for method in VOTES:
        for kind in KINDS:
            for a in AIRS:
                for b in DETECTORS:
                    n = dice.one_of(sizes)
                    p = 0 if method == SPLIT and dice.percent(70) else 20
                    table.add("every channel with every detector", whole(
                        method, kind, random_codes(dice, kind, n),
                        some_air(dice, a, n), some_detector(dice, b, (), p),
                        dice.one_of(MANAGERS),
                        limit=long_enough(method, kind)))


def add_layers(table):
    """One layer and two on each side, over every channel and detector."""
    dice = Dice(22)
    for method in VOTES:
        for a in AIRS:
            for above, beside in ((1, 0), (0, 1), (2, 0), (0, 2), (1, 1),
                                  (2, 2)):
                kind = dice.one_of(KINDS)
                n = dice.one_of((2, 3, 5, 9, 17))
                b = dice.one_of(DETECTORS)
                group = "layers" if max(above, beside) < 2 else \
                    "piles of layers"
                # quiet recordings, so that the layers speak
                table.add(group, whole(
                    method, kind, random_codes(dice, kind, n),
                    some_air(dice, a, n, some_layers(dice, above, 20), 6),
                    some_detector(dice, b, some_layers(dice, beside, 20), 0),
                    dice.one_of(MANAGERS),
                    limit=long_enough(method, kind)))
    # In a split vote all heads may be alarmed where each has missed one.
    for kind in KINDS:
        top = 2 ** WIDTH[kind] - 1
        for above, beside in ((1, 1), (2, 2)):
            for b in DETECTORS:
                dead = [[(1, 2)], [(5, 6)]][:above]
                noise = [[(1, 1)], [(5, 5)]][:beside]
                codes = [0, 1, 2, top // 2, top]
                table.add("piles of layers" if above == 2 else "layers",
                          whole(SPLIT, kind, codes, air(layers=dead),
                                detector(b, layers=noise), ROTATION), 0)
    # The borders of spells, and sixteen of them.
    for method in (SHORT, BIT):
        for spells in ([(3, 3)], [(2, 2), (4, 4)], [(1, 4), (2, 9)],
                       [(2 * k, 2 * k) for k in range(1, 17)],
                       [(10000, 10000)], []):
            table.add("layers", whole(
                method, TICKET, [3, 70, 900], air(layers=[spells]),
                detector(SQUELCH if method == BIT else COUNTING,
                         layers=[spells[:1]]), ROTATION), 0)


def add_sizes(table):
    """Every number of heads from 1 to 64."""
    dice = Dice(23)
    for n in range(1, 65):
        method, kind = VOTES[n % 3], KINDS[n // 3 % 2]
        table.add("every number of heads", whole(
            method, kind, random_codes(dice, kind, n, dice.percent(50)),
            some_air(dice, AIRS[n // 6 % 3], n, (), 2),
            some_detector(dice, COUNTING if method == SHORT
                          else dice.one_of((COUNTING, SQUELCH))),
            MANAGERS[n // 2 % 2], limit=80), 0)


def add_other_rolls(table):
    """Parts made for fewer or more heads than the vote has."""
    dice = Dice(24)
    for method in VOTES:
        for n, m in ((5, 2), (5, 1), (4, 9), (64, 30), (3, 64)):
            for a in (CAPTURE, RECORDED):
                kind = dice.one_of(KINDS)
                table.add("parts for other rolls", whole(
                    method, kind, random_codes(dice, kind, n),
                    some_air(dice, a, m, (), 5), detector(COUNTING),
                    dice.one_of(MANAGERS), limit=60), 0)


def add_driven_stops(table):
    """Stops, in turn and at once, and the turn that passes them over."""
    dice = Dice(25)
    for k in range(42):
        method, kind = VOTES[k % 3], KINDS[k // 3 % 2]
        n = dice.one_of((1, 2, 4, 7, 16, 40, 64))
        settings, left = {}, set(range(n))
        for round_ in sorted({1 + dice.below(20) for _ in range(4)}):
            stops = dice.some_of(left, 30)
            # in the first rounds nobody has decided yet
            if stops and (round_ == 1 or method != SHORT and round_ < 11):
                settings[round_] = (stops, n, n)
                left -= stops
        if k % 7 == 0:
            settings = {1: (set(range(n)), n, n)}
        table.add("stops", whole(
            method, kind, random_codes(dice, kind, n),
            some_air(dice, AIRS[k % 2 * 2], n, (), 4),
            detector(COUNTING), ROTATION, settings,
            limit=long_enough(method, kind)), 0)


def add_left_running(table):
    """Votes that are driven a few rounds only, or not at all."""
    dice = Dice(29)
    for k in range(36):
        method, kind = VOTES[k % 3], KINDS[k // 3 % 2]
        n = dice.one_of((1, 3, 6, 20, 64))
        d = whole(method, kind, random_codes(dice, kind, n),
                  some_air(dice, AIRS[k // 2 % 3], n,
                           some_layers(dice, k % 2, 6), 4),
                  detector(COUNTING), dice.one_of(MANAGERS))
        table.add("left running", d._replace(
            drivings=0 if k < 6 else dice.below(d.drivings)), 0)


def add_rotation(table):
    """Rotation over more than 64 rounds, held up by interference."""
    dice = Dice(26)
    for method in (SHORT, BIT):
        for n in (1, 2, 5, 33, 64):
            for last in (70, 150):
                stops = dice.some_of(range(n), 20) - {0}
                table.add("rotation", whole(
                    method, RECIPE, random_codes(dice, RECIPE, n),
                    some_air(dice, dice.one_of((CLEAR, CAPTURE)), n),
                    detector(COUNTING, layers=[[(1, last)]]), ROTATION,
                    {40: (stops, n, n)}, limit=300), 0)


def add_everyone(table):
    """A turn for every running head: it shows which sender is heard."""
    dice = Dice(30)
    for k in range(96):
        method, kind = (SHORT, BIT, BIT, BIT)[k % 4], KINDS[k // 4 % 2]
        a = (CAPTURE, CAPTURE, RECORDED, CLEAR)[k // 8 % 4]
        n = 3 if method == SHORT else dice.one_of((2, 3, 4, 6, 9, 20, 64))
        m = n if k % 3 else 1 + dice.below(n)
        b = COUNTING if a == RECORDED and method == SHORT else \
            dice.one_of((SQUELCH, RECORDED_ZERO))
        table.add("a turn for everyone", whole(
            method, kind, random_codes(dice, kind, n),
            some_air(dice, a, m, some_layers(dice, k % 5 // 3, 20), 20),
            some_detector(dice, b, (), 5), EVERYONE,
            limit=3 * (WIDTH[kind] + 2)))


def add_driven_refusals(table):
    group = "refusals"
    dice = Dice(27)
    for method in VOTES:
        for kind in KINDS:
            codes = [5, 9, 9, 40]

            def drive(drivings, settings, air_=air(), detector_=detector(),
                      codes=codes, manager=LOWEST):
                return Drive(method, kind, codes, air_, detector_, manager,
                             drivings, settings)

            none = set()
            # the table and the list, in the first round and later
            for round_ in (1, 2):
                table.add(group, drive(9, {round_: (none, 3, 4)}), 4)
                table.add(group, drive(9, {round_: (none, 0, 9)}), 4)
                for words in (0, 3, 5, 65):
                    table.add(group, drive(9, {round_: (none, 4, words)}), 8)
            # records past the roll change nothing
            table.add("records past the roll",
                      drive(2, {1: (none, 64, 4), 2: ({1}, 5, 4)}), 0)
            # stops: of a number past the roll, of a stopped head, of both
            table.add(group, drive(9, {1: ({4}, 4, 4)}), 9)
            table.add(group, drive(9, {1: ({0, 63}, 4, 4)}), 9)
            table.add(group, drive(9, {1: ({2}, 4, 4), 2: ({1, 2}, 4, 4)}), 9)
            # no head runs: all stopped, or all decided
            table.add(group, drive(2, {1: ({0, 1, 2, 3}, 4, 4)}), 6)
            end = whole(method, kind, codes, air(), detector(), more=1)
            table.add(group, end, 6)
            last = end.drivings
            # 4 before 8 before 6 before 9
            for number, setting in ((4, ({0}, 3, 5)), (8, ({0}, 4, 5)),
                                    (6, ({0}, 4, 4))):
                table.add(group, end._replace(settings={last: setting}),
                          number)
            # 9 before the report of deaf heads
            if method == SHORT:
                veto = air(layers=[[(1, 2)]])
                table.add(group, drive(4, {}, veto, detector(SQUELCH)), 13)
                table.add(group, drive(4, {2: ({9}, 4, 4)}, veto,
                                       detector(SQUELCH)), 9)
                table.add(group, drive(4, {2: (none, 4, 3)}, veto,
                                       detector(SQUELCH)), 8)
                # half of the vetoes, by recorded and capturing air; a
                # layer keeps the class of what it lies on
                table.add(group, drive(
                    4, {}, air(RECORDED, [1, 0, 0, 0, 6, 2, 4, 8], 4),
                    detector(SQUELCH)), 13)
                table.add(group, drive(
                    6, {}, air(CAPTURE, [1, 2, 3, 4], None, [[(1, 1)]]),
                    detector(RECORDED_ZERO)), 13)
                table.add(group, drive(
                    6, {}, air(CAPTURE, [1, 2, 3, 4], None, [[(3, 3)]]),
                    detector(SQUELCH, layers=[[(1, 1)]])), 13)
                table.add(group, drive(
                    6, {}, air(layers=[[(3, 4)]]), detector(
                        RECORDED_ZERO, [0, 0, 0, 0], [[(1, 2)], [(2, 2)]]),
                    manager=ROTATION), 13)
            if method == SPLIT:
                table.add(group, drive(9, {}, air(), detector(
                    RECORDED_ZERO, [8])), 14)
                table.add(group, drive(9, {}, air(), detector(
                    RECORDED_MAJORITY, [16, 0, 4])), 14)
                table.add(group, drive(9, {}, air(), detector(
                    COUNTING, layers=[[(2, 2)]])), 14)
                table.add(group, drive(9, {}, air(), detector(
                    SQUELCH, layers=[[(7, 9)], [(3, 4)]])), 14)
                table.add(group, drive(9, {}, air(layers=[[(1, 3)]]), detector(
                    SQUELCH, layers=[[(7, 9)], [(1, 2)]])), 14)
                table.add(group, drive(9, {2: ({5}, 4, 4)}, air(), detector(
                    COUNTING, layers=[[(2, 2)]])), 9)
    # Heads that have decided while another one still runs.
    for method, last in ((SHORT, 2), (BIT, 14)):
        d = Drive(method, RECIPE, [7, 7, 7], air(),
                  detector(RECORDED_MAJORITY, [0] * (last - 1) + [4]), LOWEST,
                  last, {})
        table.add("decided beside running heads", d, 0)
        table.add("decided beside running heads",
                  whole(*d[:6], limit=80), 0)
        for stops, number in (({0, 2}, 9), ({1}, 9), ({2}, 0)):
            table.add("decided beside running heads", d._replace(
                drivings=last + 1, settings={last + 1: (stops, 3, 3)}),
                number)
    # Ballots and rolls.
    group = "ballots, rolls and parts"

    def one(codes, kind=RECIPE, air_=air(), detector_=detector()):
        return Drive(SHORT, kind, codes, air_, detector_, LOWEST, 3, {})

    table.add(group, one([1, 4096]), 1)
    table.add(group, one([1024], TICKET), 1)
    table.add(group, one([1] * 65), 2)
    table.add(group, one([]), 3)
    for air_ in (air(CAPTURE, []), air(CAPTURE, [0] * 65),
                 air(CAPTURE, [3, 1000]), air(RECORDED, [], 0),
                 air(RECORDED, [1] * 65, 65), air(RECORDED, [1, 2, 3], 2),
                 air(RECORDED, [0] * 10001, 1)):
        table.add(group, one([1, 2], TICKET, air_), 17)
    table.add(group, one([1, 2], RECIPE, air(), detector(
        RECORDED_ZERO, [0] * 10001)), 17)
    for spells in ([(0, 3)], [(3, 2)], [(2, 10001)], [(1, 1)] * 17):
        table.add(group, one([1, 2], RECIPE, air(layers=[spells])), 17)
        table.add(group, one([1, 2], RECIPE, air(), detector(
            SQUELCH, layers=[[], spells])), 17)
    table.add(group, one([1, 2], TICKET, air(CAPTURE, [999, 0]), detector(
        SQUELCH, layers=[[(1, 1)] * 16, [(1, 10000)]])), 0)


def add_driven_long(table):
    """Votes held up for 10,000 rounds, and one driving more."""
    group = "10,000 rounds"
    ever = [[(1, 10000)]]
    short = Drive(SHORT, RECIPE, [7, 8, 9], air(CAPTURE, [4, 2, 900]),
                  detector(COUNTING, layers=ever), ROTATION, 10000, {})
    table.add(group, short, 0)
    table.add(group, short._replace(drivings=10001, air=air(layers=ever),
                                    detector=detector()), 5)
    table.add(group, Drive(BIT, TICKET, [1], air(), detector(
        SQUELCH, layers=ever), LOWEST, 10001, {10001: (set(), 1, 2)}), 8)
    table.add(group, Drive(BIT, RECIPE, [1, 2], air(), detector(
        SQUELCH, layers=ever), LOWEST, 10001, {10000: ({0, 1}, 2, 2)}), 5)


def add_driven_random(table):
    """Everything by chance, refusals too."""
    dice = Dice(28)
    for k in range(90):
        method, kind = VOTES[k % 3], dice.one_of(KINDS)
        n = 1 + dice.below(dice.one_of((4, 12, 64)))
        settings = {}
        for _ in range(dice.below(3)):
            settings[1 + dice.below(9)] = (dice.some_of(range(n), 20), n, n)
        table.add("by chance", whole(
            method, kind, random_codes(dice, kind, n, dice.percent(30)),
            some_air(dice, dice.one_of(AIRS), n,
                     some_layers(dice, dice.below(3), 30)),
            some_detector(dice, dice.one_of(DETECTORS),
                          some_layers(dice, dice.one_of((0, 0, 1, 2)), 30),
                          dice.one_of((0, 10))),
            dice.one_of(MANAGERS), settings, limit=100,
            more=dice.one_of((0, 0, 1))))


def drives():
    table = Table()
    add_parts(table)
    add_layers(table)
    add_sizes(table)
    add_other_rolls(table)
    add_driven_stops(table)
    add_left_running(table)
    add_rotation(table)
    add_everyone(table)
    add_driven_refusals(table)
    add_driven_long(table)
    add_driven_random(table)
    return table.entries


# ---------------------------------------------------------------------------
# Writing them down
# ---------------------------------------------------------------------------

def model_listings(inputs):
    """What the model prints, for each mode and its input."""
    texts = []
    with tempfile.TemporaryDirectory() as folder:
        model = os.path.join(folder, "model")
        subprocess.run(["cc", "-std=c11", "-O3", "-o", model,
                        os.path.join(HERE, "model.c")], check=True)
        for mode, data in inputs:
            done = subprocess.run([model, mode], input=data, check=True,
                                  stdout=subprocess.PIPE)
            texts.append(done.stdout.decode("ascii"))
    return texts


def compare(entries, predict, text):
    """Stops unless the predicted listing is the model's everywhere."""
    blocks = text.split("V ")[1:]
    if len(blocks) != len(entries):
        sys.exit("error: the model played %d of %d votes"
                 % (len(blocks), len(entries)))
    wrong = 0
    listings = []
    for k, ((group, data), block) in enumerate(zip(entries, blocks), 1):
        number, *played = block.splitlines()
        predicted = predict(data)
        listings.append(predicted)
        if number == str(k) and played == predicted:
            continue
        wrong += 1
        differing = [pair for pair in zip(played, predicted)
                     if pair[0] != pair[1]]
        print("error: vote %d (%s): model and prediction differ: %s"
              % (k, group, differing[:1] or "lengths"), file=sys.stderr)
    if wrong:
        sys.exit("error: %d votes differ" % wrong)
    return listings


def recorded_method(data):
    return data[2] if len(data) > 2 else 0


def summary(what, entries, method_of, listings):
    groups = collections.Counter(group for group, _ in entries)
    faults = collections.Counter()
    ends = collections.Counter()
    decided = 0
    for (_, data), lines in zip(entries, listings):
        name = VOTE_NAMES.get(method_of(data), "none")
        last = lines[-1].split()
        if last[0] == "F":
            faults[int(last[1]), name] += 1
        else:
            ends[name] += 1
            decided += all(line.split()[2] != "r" for line in lines
                           if line[0] == "H")
    for group, number in groups.items():
        print("%4d  %s" % (number, group))
    print("%4d  %s, %d played whole (%d of them with no head left "
          "running)" % (len(entries), what, sum(ends.values()), decided))
    names = list(VOTE_NAMES.values()) + ["none"]
    print("fault " + " ".join("%6s" % name for name in names))
    for number in sorted({f for f, _ in faults}):
        print("%5d " % number + " ".join("%6d" % faults[number, name]
                                         for name in names))
    print("whole " + " ".join("%6d" % ends[name] for name in names))


def write(folder, data, text):
    with open(os.path.join(folder, "stdin"), "wb") as out:
        out.write(data)
    with open(os.path.join(folder, "stdout"), "w") as out:
        out.write(text)
    print("stdin %d bytes, stdout %d bytes" % (len(data), len(text)))


def main():
    recordings, driven = catalog(), drives()
    batch = b"".join(struct.pack("<I", len(data)) + data
                     for _, data in recordings)
    table = "".join(drive_line(d) for _, d in driven).encode("ascii")
    played, drove = model_listings([("batch", batch), ("drives", table)])
    recorded_lists = compare(recordings, listing, played)
    driven_lists = compare(driven, drive_listing, drove)
    summary("recordings", recordings, recorded_method, recorded_lists)
    write(REPLAYS, batch, played)
    summary("driven votes", driven, lambda d: d.method, driven_lists)
    write(DRIVES, table, drove)


if __name__ == "__main__":
    main()
