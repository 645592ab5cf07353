#!/usr/bin/env python3
"""Makes the known-answer runs of the programs `gate` and `hand`, by a play of all ends over tools/reference.py.

    tools/vectors.py OUT [--seed N]            writes OUT/gate and OUT/hand, each with args, stdin, stdout and data/
    tools/vectors.py --check OUT [--seed N]    makes them again and says whether they are what stands there

The same seed gives the same files, byte for byte. In each run one end is the subject, gate 3 with 5 handhelds or handheld
2 among 4 gates; whatever it hears and does is a line of stdin, and what it prints is stdout. It begins with a short story
with comments; then come lines that are no commands, and messages that are damaged, forged, replayed or for others; then a
long random play; at last the entropy in its FILE runs out, and loads go on.

What the play covers is counted on standard error, and the script fails if a case of `WANTED` does not come up. It also
fails if a promise breaks: two texts under one keystream input, a nonce drawn twice, or a delivery that the other end did
not send, or that comes twice or out of order.
"""

import argparse
import subprocess
import sys
from collections import Counter
from dataclasses import replace
from pathlib import Path

sys.dont_write_bytecode = True

import reference
from reference import ALL, BEGIN, FROM_GATE, FROM_HAND, LARGEST, LIMIT, LOAD, RENEW, REPLY, TAKE, TAKEN, TOP
from reference import KINDS, NONCE_ENTROPY, Keyed, Message, Refused
from reference import cut, encode, group_key, le, nonce_numbers, pairwise_key, parts_of, sealed, shake, tagged

GATES, HANDS = 4, 5
SUBJECT = {"gate": 3, "hand": 2}
AMPLE = 4000  # nonces that an end could draw; the subject's entropy is cut off later
LINES = 2400  # of the subject, before its entropy runs out
HEARS = {"gate": (REPLY, TAKEN, LOAD), "hand": (BEGIN, TAKE, RENEW, LOAD, ALL)}

BLANK_LINES = (b"", b"   ", b"\t", b" \t ", b"#", b"#act 0 0 0", b"  # act 0 0 0", b"\t#")
ODD_HEX_LINES = (
    b"hear", b"hear ", b"hear 0", b"hear 000", b"hear 0g", b"hear zz", b"hear 0x00", b"hear -1", b"hear 00\r", b"hear #",
)  # fmt: skip
MALFORMED_LINES = (
    b"act", b"act 0", b"act 0 0", b"act 0 0 0 0", b"act x 0 0", b"act 0 -1 0", b"act 0 0 +1", b"act 0 0 0x1", b"act 0 0 1.0",
    b"act 0 0 0\rx", b"Act 0 0 0", b"act0 0 0", b"HEAR 00", b"hear 00 00", b"hear 0 0", b"say 00", b"hand on 0 0", b"0 0 0",
    b"act # 0 0", b"hears 00", b"\xff\xfe", b"act 0 0 \xd9\xa3", b"act,0,0,0",
)  # fmt: skip

INVITE, SEND, SEND_ALL, ROTATE, REKEY, FORGET = range(6)
HAND_SEND, HAND_FORGET = 0, 1


class Dice:
    """Numbers that look random and follow from the seed alone: SHAKE256 of it and of a count."""

    def __init__(self, seed):
        self.seed = seed
        self.rolled = 0

    def below(self, bound):
        self.rolled += 1
        return int.from_bytes(shake(8, b"dice", self.seed, le(self.rolled, 8)), "little") % bound

    def chance(self, percent):
        return self.below(100) < percent

    def pick(self, items):
        return items[self.below(len(items))]

    def bytes(self, length):
        self.rolled += 1
        return shake(length, b"bytes", self.seed, le(self.rolled, 8))


# The promises, watched over the whole play


def require(holds, what):
    if not holds:
        raise SystemExit(f"vectors.py: {what}")


class Ledger:
    """What was drawn, sealed, said and delivered by honest ends, and what rogue ones made with a right key."""

    def __init__(self):
        self.drawn = {}
        self.texts = {}
        self.said = {}
        self.rogue = {}
        self.last = {}

    def draws(self, nonce):
        numbers = nonce_numbers(nonce)
        require(numbers not in self.drawn and nonce[11:] not in self.drawn, f"the nonce {numbers} is drawn twice")
        self.drawn[numbers] = self.drawn[nonce[11:]] = nonce

    def seals(self, text, label, *rest):
        """No keystream covers two texts; only that of a take is used again, for the same text."""
        once = label != b"take"
        require((label, *rest) not in self.texts or not once, f"a {label} keystream is used again, counter {rest[-1]}")
        require(self.texts.setdefault((label, *rest), text) == text, "a keystream covers two texts")

    def says(self, name, data, body):
        """Only a take and a taken are ever said again as they were."""
        require(data not in self.said or data[0] in (TAKE, TAKEN), f"a {KINDS[data[0]]} is said twice")
        self.said[data] = (name, body)

    def delivers(self, name, data, body):
        """Sent by the other end, with that body; under one key counters rise, also after forgetting: none comes twice."""
        message = cut(data)
        up = message.kind == LOAD and message.flag == FROM_HAND
        sender = ("hand", message.hand) if up else ("gate", message.gate)
        sent = self.rogue[data] if data in self.rogue else self.said.get(data)
        require(sent == (sender, body), f"{name} delivers {body} from {sender}, who did not send it")
        stream = (name, message.gate, message.group) if message.kind == ALL else (name, message.pair)
        require(message.counter > self.last.get(stream, -1), f"{name} delivers counter {message.counter} again or late")
        self.last[stream] = message.counter


class Watched:
    """An end whose nonces and sealed texts are written into a ledger."""

    ledger = None

    def draw(self):
        nonce = super().draw()
        if nonce is not None:
            self.ledger.draws(nonce)
        return nonce

    def seal(self, label, key, direction, counter, text):
        self.ledger.seals(text, label, key, direction, counter)
        return super().seal(label, key, direction, counter, text)


class Gate(Watched, reference.Gate):
    pass


class Hand(Watched, reference.Hand):
    pass


def name_of(end):
    return ("gate" if isinstance(end, Gate) else "hand"), end.number


# What a line of the subject came to, by what it held before and after


def heard_at_hand(before, message, says, delivers, after):
    """The case of a message that a handheld did not refuse."""
    kind = message.kind
    if kind == BEGIN:
        if says is None:
            return "begin without entropy"
        return "begin: an offer replaced" if before.offered else "begin answered"
    if kind == TAKE:
        if before.offers(message.pair):
            return f"take: installed, {learned(before, message, after)}"
        return "take again: taken again" if says else "take for no pair held"
    if kind == RENEW:
        if after.round != before.round:
            return f"renew: {learned(before, message, after)}"
        return f"renew: nothing, {standing(before, message)}"
    if kind == LOAD:
        return heard_load(before, message, delivers)
    if delivers:
        return "all delivered"
    had = message.group == before.group != 0
    return "all below the floor" if had else f"all under group key {'0' if message.group == 0 else 'not had'}"


def heard_at_gate(before, message, says, delivers, after):
    """The case of a message that a gate did not refuse."""
    kind = message.kind
    if kind == REPLY and says:
        if before.offers(message.pair):
            return "reply again: take again"
        return "reply: an offer replaced" if before.offered else "reply answered"
    if kind == REPLY:
        return "reply with no open handshake" if before.handshake is None else "reply to an old handshake"
    if kind == TAKEN:
        if before.offers(message.pair):
            return "taken: installed over another" if before.in_use else "taken: installed"
        return f"taken: nothing, {standing(before, message)}"
    return heard_load(before, message, delivers)


def heard_load(before, message, delivers):
    if delivers:
        return "load delivered"
    return "load below the floor" if before.uses(message.pair) else f"load: nothing, {standing(before, message)}"


def standing(peer, message):
    """What the message's pair is at that end."""
    if peer.offers(message.pair):
        return "pair only offered"
    return "pair in use" if peer.uses(message.pair) else "pair not held"


def learned(before, message, after):
    """What came of the group key in a take or a renew."""
    if message.group == 0:
        return "no group key in it"
    if message.group > before.group:
        return "a higher group key"
    if message.group < before.group:
        return "a lower group key"
    return "group floor raised" if after.group_floor > before.group_floor else "group floor kept"


def acted_at_gate(kind, hand, body, says):
    name = ("invite", "send", "send to all", "rotate", "rekey", "forget")[min(kind, FORGET)]
    if kind in (INVITE, SEND, REKEY) and hand >= HANDS:
        return f"act: {name}, nobody there"
    if kind in (SEND, SEND_ALL) and body >= TOP:
        return f"act: {name}, body too large"
    return f"act: {name}" if says or kind == ROTATE or kind >= FORGET else f"act: {name}, in vain"


def acted_at_hand(kind, gate, body, says):
    if kind >= HAND_FORGET:
        return "act: forget"
    if gate >= GATES:
        return "act: send, nobody there"
    if body >= TOP:
        return "act: send, body too large"
    return "act: send" if says else "act: send, in vain"


# The play


def flipped(dice, data, start, end):
    """The bytes with one bit damaged between two places."""
    changed = bytearray(data)
    changed[start + dice.below(end - start)] ^= 1 << dice.below(8)
    return bytes(changed)


def regions(kind):
    """The parts of a message of that kind; a nonce is two, its numbers and its entropy."""
    for name, start, end in parts_of(kind):
        if name in ("anonce", "snonce"):
            yield f"{name}'s numbers", start, start + 11
            yield f"{name}'s entropy", start + 11, end
        else:
            yield name, start, end


def with_number(data, name, value):
    """The message with another number in that part, a nonce's being its index; the tag stays as it was."""
    for part, start, end in parts_of(data[0]):
        if part == name:
            start, width = (start + 3, 8) if name in ("anonce", "snonce") else (start, end - start)
            return data[:start] + le(value, width) + data[start + width :]
    raise ValueError(name)


class Play:
    """All gates and handhelds with the air between. The subject's lines, answers and cases are written down."""

    def __init__(self, seed, kind):
        self.dice = Dice(b"%d %s" % (seed, kind.encode()))
        self.ledger = Ledger()
        self.kind = kind
        secrets = [[self.dice.bytes(32) for _ in range(HANDS)] for _ in range(GATES)]
        self.gates = [self.watched(Gate, g, self.dice.bytes(32), secrets[g]) for g in range(GATES)]
        self.hands = [self.watched(Hand, s, [row[s] for row in secrets]) for s in range(HANDS)]
        self.subject = (self.gates if kind == "gate" else self.hands)[SUBJECT[kind]]
        self.air = []
        self.pending = []
        self.lines, self.answers, self.cases = [], [], Counter()
        self.dry = False  # whether the subject's entropy ran out

    def watched(self, make, *words):
        end = make(*words, self.dice.bytes(NONCE_ENTROPY * AMPLE))
        end.ledger = self.ledger
        return end

    # Lines of the subject

    def tell(self, line):
        """One line to the subject: what it says and delivers, and what it is refused with."""
        self.lines.append(line)
        try:
            answers = reference.answer(self.subject, line)
        except reference.Malformed:
            self.cases["line: malformed"] += 1
            return None, None, 0
        self.answers += answers
        says, delivers, refused = None, None, 0
        for text in answers:
            word, *rest = text.split()
            if word == "say":
                says = bytes.fromhex(rest[0])
            elif word == "refused":
                refused = int(rest[0])
            else:
                delivers = tuple(map(int, rest[1:]))
        return says, delivers, refused

    def comment(self, text):
        self.tell(b"# " + text.encode())
        self.cases["line: comment"] += 1

    def spelled(self, data, plain):
        """The bytes in hex; sometimes in capitals or with more blanks."""
        text = data.hex().encode()
        if plain or self.dice.chance(92):
            return b"hear " + text
        if self.dice.chance(50):
            self.cases["line: hex in capitals"] += 1
            return b"hear " + text.upper()
        self.cases["line: more blanks"] += 1
        return self.dice.pick([b"hear\t%s", b"  hear   %s", b"\thear %s \t", b" \t hear \t %s"]) % text

    # Any end

    def peer_of(self, end, message):
        return end.peers[message.gate if isinstance(end, Hand) else message.hand]

    def hear(self, end, data, case=None, plain=False):
        """An end hears bytes; what it says goes into the air. For the subject a line."""
        if end is self.subject:
            return self.hear_subject(data, case, plain)
        try:
            says, delivers = end.hear(data)
        except Refused:
            return None
        return self.follow(end, data, says, delivers)

    def hear_subject(self, data, case, plain):
        before = [replace(peer) for peer in self.subject.peers]
        says, delivers, refused = self.tell(self.spelled(data, plain))
        if case:
            self.cases[case] += 1
        kind = KINDS[data[0]] if data and data[0] < len(KINDS) else "no kind"
        if refused:
            self.cases[f"refused {refused}: {kind}"] += 1
            return None
        message = cut(data)
        place = message.gate if self.kind == "hand" else message.hand
        heard = heard_at_hand if self.kind == "hand" else heard_at_gate
        self.note(heard(before[place], message, says, delivers, self.subject.peers[place]))
        return self.follow(self.subject, data, says, delivers)

    def note(self, case):
        self.cases[case] += 1
        if self.dry:
            self.cases[f"without entropy: {case}"] += 1

    def follow(self, end, data, says, delivers):
        if delivers:
            self.ledger.delivers(name_of(end), data, delivers[1])
        if says:
            self.put(end, says, None)
        return says

    def act(self, end, kind, peer=0, body=0):
        """An end acts; what it says goes into the air. For the subject a line."""
        if end is not self.subject:
            says = end.act(kind, peer, body).says
        else:
            says, _, _ = self.tell(b"act %d %d %d" % (kind, peer, body))
            name = acted_at_gate if self.kind == "gate" else acted_at_hand
            self.note(name(kind, peer, body, says))
        if says:
            self.put(end, says, body if says[0] in (LOAD, ALL) else None)
        return says

    def put(self, end, says, body):
        """A message is on the air, and pending for whom it is for."""
        self.ledger.says(name_of(end), says, body)
        receivers = self.receivers(says)
        self.air.append((receivers, says))
        self.pending += [(receiver, says) for receiver in receivers]

    def receivers(self, data):
        message = cut(data)
        if message.kind == ALL:
            return self.hands
        down = message.kind in (BEGIN, TAKE, RENEW) or (message.kind == LOAD and message.flag == FROM_GATE)
        return [self.hands[message.hand] if down else self.gates[message.gate]]

    # Whole exchanges

    def sides(self, place):
        """The gate and the handheld of the subject with its peer at that place."""
        return (self.subject, self.hands[place]) if self.kind == "gate" else (self.gates[place], self.subject)

    def any_sides(self):
        return self.sides(self.dice.below(len(self.subject.peers)))

    def handshake(self, gate, hand, plain=False):
        """Begin, reply, take, taken, nothing lost."""
        begin = self.act(gate, INVITE, hand.number)
        reply = begin and self.hear(hand, begin, plain=plain)
        take = reply and self.hear(gate, reply, plain=plain)
        taken = take and self.hear(hand, take, plain=plain)
        if taken:
            self.hear(gate, taken, plain=plain)
        return begin, reply, take, taken

    def down(self, gate, hand, body, plain=False):
        load = self.act(gate, SEND, hand.number, body)
        if load:
            self.hear(hand, load, plain=plain)
        return load

    def up(self, gate, hand, body, plain=False):
        load = self.act(hand, HAND_SEND, gate.number, body)
        if load:
            self.hear(gate, load, plain=plain)
        return load

    def to_all(self, gate, body, heard_by=()):
        frame = self.act(gate, SEND_ALL, 0, body)
        for hand in heard_by:
            self.hear(hand, frame)
        return frame

    def rekeyed(self, gate, hand):
        self.act(gate, ROTATE)
        renew = self.act(gate, REKEY, hand.number)
        if renew:
            self.hear(hand, renew)
        return renew

    def rogue(self, kind, keyed, body=None, **values):
        """A message with a right tag that no honest end says: the peer's program is another. It is heard by the subject."""
        pair, key = keyed
        values = {"flag": FROM_GATE if self.kind == "hand" else FROM_HAND, **values} if kind == LOAD else values
        if body is not None:
            direction = values["flag"] if kind == LOAD else FROM_GATE
            values["sealed_body"] = sealed(b"seal", key, direction, values["counter"], le(body, 8))
        names = {"gate": pair.gate} if kind == ALL else pair._asdict()
        data = tagged(key, Message(kind, **{**names, **values}))
        sender = ("hand", pair.hand) if self.kind == "gate" else ("gate", pair.gate)
        self.ledger.rogue[data] = (sender, body)
        self.hear(self.subject, data, f"rogue {KINDS[kind]}")
        return data

    def held(self, gate, hand):
        """What the subject holds for that peer."""
        return self.subject.peers[hand.number if self.kind == "gate" else gate.number]

    # The story at the beginning

    def tale(self, at_gate, at_hand):
        """A comment that says what the next lines show at a gate or at a handheld."""
        self.comment(at_gate if self.kind == "gate" else at_hand)

    def story(self):
        gate, hand = self.sides(1)
        self.tale(
            "a handshake: begin is said, reply is answered by take, taken ends it",
            "a handshake: begin is answered by reply, take by taken",
        )
        _, reply, take, taken = self.handshake(gate, hand, plain=True)
        self.comment("a load each way")
        down = self.down(gate, hand, 42, plain=True)
        up = self.up(gate, hand, 43, plain=True)
        self.comment("the same load again: not delivered")
        self.hear(hand, down, "replayed", plain=True)
        self.hear(gate, up, "replayed", plain=True)
        self.tale(
            "taken again, since take was caught and sent again: the counters go on",
            "take caught and sent again: taken is said again, and the counters go on",
        )
        self.hear(hand, take, "replayed", plain=True)
        self.hear(gate, taken, "replayed", plain=True)
        self.up(gate, hand, 44, plain=True)
        self.down(gate, hand, 45, plain=True)
        self.story_to_all(gate, hand)
        self.tale("another handheld, and a load to it", "another gate, and a load from it")
        self.handshake(*self.sides(0), plain=True)
        self.down(*self.sides(0), 46, plain=True)
        self.story_two_replies(gate, hand, reply)

    def story_to_all(self, gate, hand):
        self.tale(
            "frames to all, with counters 0 to 2",
            "frames to all, the third heard first: the others are delivered no more",
        )
        frames = [self.to_all(gate, body) for body in (100, 101, 102)]
        for frame in reversed(frames):
            self.hear(hand, frame, plain=True)
        self.tale(
            "a new group key, word of it, and a frame with counter 0",
            "word of a new group key, and a frame with counter 0: delivered",
        )
        self.rekeyed(gate, hand)
        self.hear(hand, self.to_all(gate, 103), plain=True)

    def story_two_replies(self, gate, hand, old_reply):
        self.tale(
            "a new invitation, and the old reply: nothing is said",
            "a new invitation: its begin heard twice, so there are two replies",
        )
        begin = self.act(gate, INVITE, hand.number)
        self.hear(gate, old_reply, "old reply after a new invitation", plain=True)
        replies = [self.hear(hand, begin, plain=True) for _ in range(2)]
        self.tale(
            "its begin was heard twice: two replies, two takes, and taken for the second",
            "two takes: only that for the second reply is answered",
        )
        takes = [self.hear(gate, reply, plain=True) for reply in replies]
        self.hear(hand, takes[0], plain=True)
        self.hear(gate, self.hear(hand, takes[1], plain=True), plain=True)
        up = self.up(gate, hand, 47, plain=True)
        down = self.down(gate, hand, 48, plain=True)
        self.tale(
            "the gate forgets: an old load and a body to send come to nothing",
            "switched off: an old take, an old load and a body to send come to nothing",
        )
        self.forget_subject()
        self.hear(hand, takes[1], "replayed", plain=True)
        self.hear(self.subject, up if self.kind == "gate" else down, "replayed", plain=True)
        self.act(gate, SEND, hand.number, 49)
        self.act(hand, HAND_SEND, gate.number, 49)
        self.story_anew(gate, hand)

    def story_anew(self, gate, hand):
        self.comment("a handshake anew, and a load each way")
        self.handshake(gate, hand, plain=True)
        self.down(gate, hand, 50, plain=True)
        self.up(gate, hand, 51, plain=True)
        self.comment("a load with its tag damaged, one that is cut, and text that is no hex")
        load = self.sent_to_subject(gate, hand, 52)
        self.hear(self.subject, load[:-1] + bytes([load[-1] ^ 1]), "damaged load: tag", plain=True)
        self.hear(self.subject, load[:-1], "cut", plain=True)
        self.odd_hex(b"hear 5")
        self.comment("the same load whole: delivered")
        self.hear(self.subject, load, plain=True)

    def sent_to_subject(self, gate, hand, body):
        """A load that the peer says, not yet heard."""
        if self.kind == "gate":
            return self.act(hand, HAND_SEND, gate.number, body)
        return self.act(gate, SEND, hand.number, body)

    def forget_subject(self, kind=None):
        last = FORGET if self.kind == "gate" else HAND_FORGET
        self.act(self.subject, last if kind is None else kind)

    # Lines that are no commands, and numbers at the limits

    def odd_hex(self, line):
        _, _, refused = self.tell(line)
        require(refused == 4, f"{line} is not refused 4")
        self.cases["line: no even run of hex digits"] += 1

    def lines_of_all_sorts(self):
        for line in BLANK_LINES:
            self.tell(line)
            self.cases["line: blank or comment"] += 1
        for line in ODD_HEX_LINES:
            self.odd_hex(line)
        for line in MALFORMED_LINES:
            self.tell(line)
        for data in (b"\x07", b"\x00", b"\xff" * 42, bytes(41), bytes(200), b"\x05" * 101, b"\x06" * 42):
            self.hear(self.subject, data, "bytes of no message")

    def numbers_too_large(self):
        """Towards nobody, acts past the last, bodies past the limit: compared before they are narrowed."""
        gate, hand = self.sides(1)
        peer = hand.number if self.kind == "gate" else gate.number
        count = len(self.subject.peers)
        self.handshake(*self.sides(0))
        large = (count, 255, 256, 65536, 1 << 32, LARGEST, LARGEST + 1, 10**30)
        for number in large:
            for kind in (INVITE, SEND, REKEY) if self.kind == "gate" else (HAND_SEND,):
                self.act(self.subject, kind, number, 5)
                if number > LARGEST:
                    self.cases["line: number of more than 64 bits"] += 1
        send = SEND if self.kind == "gate" else HAND_SEND
        for body in (TOP, TOP + 1, TOP + 7 * (1 << 56), LARGEST, LARGEST + 8, 10**40):
            self.act(self.subject, send, peer, body)
            if self.kind == "gate":
                self.act(self.subject, SEND_ALL, LARGEST, body)
        for body in (TOP - 1, 0, LIMIT, 1 << 32):
            self.down(gate, hand, body)
            self.up(gate, hand, body)
            self.to_all(gate, body, [hand])
        self.acts_spelled_oddly(send, peer)
        if self.kind == "gate":
            self.act(self.subject, INVITE, peer, LARGEST)
            self.act(self.subject, ROTATE, LARGEST, LARGEST)
            self.act(self.subject, SEND_ALL, LARGEST, 6)
            self.act(self.subject, REKEY, peer, TOP)
        for kind in (6, 256, LARGEST, LARGEST + 1, 10**25):
            self.forget_subject(kind)
            self.act(self.subject, send, peer, 1)
            self.handshake(gate, hand)
            self.down(gate, hand, 8)

    def acts_spelled_oddly(self, send, peer):
        for line in (b"act %03d %05d 0000000000000000000000000000000007", b"\tact %d  %d\t8", b"  act %d %d 9  "):
            says, _, _ = self.tell(line % (send, peer))
            require(says, "an act is not read")
            self.put(self.subject, says, int((line % (send, peer)).split()[-1]))
            self.cases["line: more blanks"] += 1

    # Messages that are damaged, out of place or forged

    def live(self, kind):
        """A message of that kind that the subject would hear now, and the others before it heard."""
        gate, hand = self.any_sides()
        if kind in (BEGIN, REPLY, TAKE, TAKEN):
            data = self.act(gate, INVITE, hand.number)
            for end in (hand, gate, hand):
                if data[0] == kind:
                    return data
                data = self.hear(end, data)
            return data
        self.handshake(gate, hand)
        if kind == LOAD:
            return self.sent_to_subject(gate, hand, self.dice.below(TOP))
        return self.act(gate, SEND_ALL, 0, 7) if kind == ALL else self.act(gate, REKEY, hand.number)

    def damage(self, data, region, start, end):
        self.hear(self.subject, flipped(self.dice, data, start, end), f"damaged {KINDS[data[0]]}: {region}")

    def damaged_everywhere(self):
        """Each part of each kind, three times; each bit of the kind; lengths; and then the message as it was sent."""
        for kind in HEARS[self.kind]:
            data = self.live(kind)
            for region, start, end in regions(kind):
                for _ in range(3):
                    self.damage(data, region, start, end)
            for bit in range(8):
                self.hear(self.subject, bytes([kind ^ 1 << bit]) + data[1:], f"damaged {KINDS[kind]}: kind")
            self.wrong_lengths(data)
            before = [replace(peer) for peer in self.subject.peers]
            self.hear(self.subject, data, "whole after damage")
            require(before != self.subject.peers, f"a whole {KINDS[kind]} after damaged ones brings nothing")

    def wrong_lengths(self, data):
        for length in (0, 1, len(data) // 2, len(data) - 16, len(data) - 1):
            if length:
                self.hear(self.subject, data[:length], "cut")
        self.hear(self.subject, data[1:], "cut")
        for more in (b"\x00", data[-1:], self.dice.bytes(16), data):
            self.hear(self.subject, data + more, "lengthened")

    def numbers_at_the_limit(self):
        """2^49 in each number of 8 bytes is refused 1, 2^49 - 1 is not; a flag above 1 is refused 1."""
        for kind in HEARS[self.kind]:
            data = self.live(kind)
            for name in ("round", "group", "counter", "anonce", "snonce"):
                if name in [part for part, _, _ in parts_of(kind)]:
                    for value in (TOP, LARGEST, TOP - 1):
                        self.hear(self.subject, with_number(data, name, value), f"{name} at the limit")
            if kind == LOAD:
                for flag in (2, 3, 128, 255):
                    self.hear(self.subject, with_number(data, "flag", flag), "flag above 1")
                self.hear(self.subject, with_number(data, "flag", 1 - data[1]), "flag of the other direction")

    def for_others(self):
        """Every kind of message between ends that the subject is not one of, and its own messages back to it."""
        gate = self.gates[0 if self.kind == "gate" else 1]
        hand = self.hands[4]
        shown = list(self.handshake(gate, hand))
        shown += [self.down(gate, hand, 1), self.up(gate, hand, 2), self.rekeyed(gate, hand), self.to_all(gate, 3)]
        for data in shown:
            self.hear(self.subject, data, "for others")
        own = [data for _, data in self.air if self.ledger.said[data][0] == name_of(self.subject)]
        for _ in range(20):
            self.hear(self.subject, self.dice.pick(own), "its own, back to it")

    def from_absent(self):
        """Gates and handhelds that are not there, the first behind the last one among them."""
        name, places = ("hand", (HANDS, 256, 511, 65535)) if self.kind == "gate" else ("gate", (GATES, 128, 255))
        for kind in HEARS[self.kind]:
            data = self.live(kind)
            for place in places:
                self.hear(self.subject, with_number(data, name, place), "from an absent end")
            if kind != ALL:
                other = ("gate", 0, 255) if self.kind == "gate" else ("hand", 0, 258)
                for place in other[1:]:
                    self.hear(self.subject, with_number(data, other[0], place), "for others")

    def invented_begins(self):
        """Begins that nobody said, answered by a handheld; what comes of the replies at the gate."""
        gate, hand = self.sides(2)
        begin, _, _, _ = self.handshake(gate, hand)
        early = le(0, 1) + le(gate.number, 2) + le(gate.drawn, 8) + self.dice.bytes(21)
        foreign = le(9, 1) + le(65535, 2) + le(TOP - 1, 8) + self.dice.bytes(21)
        for nonce in (cut(begin).anonce, early, foreign, bytes(32), b"\xff" * 3 + bytes(29)):
            data = encode(Message(BEGIN, gate=gate.number, hand=hand.number, anonce=nonce))
            reply = self.hear(hand, data, "invented begin")
            self.cases["reply to an invented begin"] += 1
            self.hear(gate, reply)
            if nonce == early:
                self.act(gate, INVITE, hand.number)
                self.hear(gate, reply)
        self.down(gate, hand, 11)
        self.handshake(gate, hand)

    def another_entropy(self):
        """Nonces with the numbers of held ones and other entropy, under a tag by their own key or the held one: refused 3."""
        for kind in (REPLY, TAKEN, LOAD) if self.kind == "gate" else (TAKE, RENEW, LOAD):
            data = self.live(kind)
            secret = self.secret_with(data)
            for name in ("anonce", "snonce"):
                _, start, end = next(part for part in parts_of(kind) if part[0] == name)
                changed = cut(flipped(self.dice, data, start + 11, end))
                if kind == REPLY and name == "snonce":
                    self.hear(self.subject, data)
                for pair in (changed.pair, cut(data).pair):
                    forged = tagged(pairwise_key(secret, pair), changed)
                    self.hear(self.subject, forged, "another entropy under a right tag")
            self.hear(self.subject, data)

    def secret_with(self, data):
        message = cut(data)
        return self.gates[message.gate].secrets[message.hand]

    def rogue_peer(self):
        """A peer with the right key and another program: what no honest end says, under a right tag."""
        gate, hand = self.sides(0)
        self.handshake(gate, hand)
        peer = self.held(gate, hand)
        for body in (TOP, TOP + 1, LARGEST):
            self.rogue(LOAD, peer.in_use, body, counter=peer.floor)
            self.cases["opened body of 2^49 or more"] += 1
        self.up(gate, hand, 12)
        self.down(gate, hand, 12)
        self.rogue(LOAD, peer.in_use, TOP, counter=0)
        for counter in (LIMIT - 1, LIMIT, TOP - 2, TOP - 1, TOP - 1):
            self.rogue(LOAD, peer.in_use, 13, counter=counter)
        self.up(gate, hand, 14)
        self.down(gate, hand, 14)
        self.under_the_offer(gate, hand)
        if self.kind == "hand":
            self.rogue_gate(gate, hand)
        else:
            self.rogue_replies(gate, hand)

    def under_the_offer(self, gate, hand):
        """Loads and renews by the key of a pair that is offered and not in use: the tag counts, and nothing comes of it."""
        self.handshake(gate, hand)
        begin = self.act(gate, INVITE, hand.number)
        take = self.hear(gate, self.hear(hand, begin))
        offered = self.held(gate, hand).offered
        self.rogue(LOAD, offered, 15, counter=0)
        self.rogue(LOAD, offered, TOP, counter=0)
        self.hear(self.subject, flipped(self.dice, self.rogue(LOAD, offered, 15, counter=1), 85, 101), "damaged load: tag")
        if self.kind == "hand":
            self.rogue(RENEW, offered, round=1, group=gate.group, counter=gate.group_counter + 5)
            self.to_all(gate, 15, [hand])
        taken = self.hear(hand, take)
        self.hear(gate, taken)

    def rogue_gate(self, gate, hand):
        """At a handheld: group key 0, lower and equal ones, rounds and counters up to 2^49 - 1."""
        peer = self.held(gate, hand)
        self.rekeyed(gate, hand)
        self.rogue(ALL, self.as_group(gate, hand), TOP, group=gate.group, counter=0)
        self.to_all(gate, 16, [hand])
        self.rogue(ALL, self.as_group(gate, hand), TOP + 5, group=gate.group, counter=0)
        self.rogue(ALL, Keyed(peer.in_use.pair, bytes(32)), 1, group=0, counter=0)
        self.rogue(TAKE, peer.in_use, group=gate.group + 5, counter=9)
        for group, counter in ((0, 0), (gate.group - 1, 99), (gate.group, 0), (gate.group, peer.group_floor + 2)):
            self.rogue(RENEW, peer.in_use, round=peer.round + 1, group=group, counter=counter)
        for body in range(17, 22):
            self.to_all(gate, body, [hand])
        self.rogue(RENEW, peer.in_use, round=peer.round, group=gate.group + 1, counter=0)
        self.to_all(gate, 22, [hand])
        self.rogue(RENEW, peer.in_use, round=TOP - 1, group=gate.group, counter=0)
        self.rekeyed(gate, hand)
        self.without_group_key(gate, hand)
        self.highest_group_key(gate, hand)

    def as_group(self, gate, hand):
        return Keyed(self.held(gate, hand).in_use.pair, group_key(gate.own, gate.group))

    def offer(self, gate, hand):
        self.hear(hand, self.act(gate, INVITE, hand.number))
        return self.held(gate, hand).offered

    def without_group_key(self, gate, hand):
        """A take with group key 0 after forgetting: a pair in use, and no group key until the gate gives word."""
        self.forget_subject()
        self.rogue(TAKE, self.offer(gate, hand), group=0, counter=7)
        self.to_all(gate, 22, [hand])
        keyed = self.held(gate, hand).in_use
        self.rogue(ALL, Keyed(keyed.pair, bytes(32)), 1, group=0, counter=9)
        self.rogue(RENEW, keyed, round=1, group=0, counter=7)
        opened = sealed(b"keys", keyed.key, FROM_GATE, 2, group_key(gate.own, gate.group))
        self.rogue(RENEW, keyed, round=2, group=gate.group, counter=gate.group_counter, sealed_key=opened)
        self.to_all(gate, 23, [hand])

    def highest_group_key(self, gate, hand):
        """The highest number and counter that can be told: the last frame is delivered once, and honest keys are lower."""
        key = self.dice.bytes(32)
        offered = self.offer(gate, hand)
        text = sealed(b"take", offered.key, FROM_GATE, TOP - 1, key)
        self.rogue(TAKE, offered, group=TOP - 1, counter=TOP - 1, sealed_key=text)
        for counter in (TOP - 2, TOP - 1, TOP - 1):
            self.rogue(ALL, Keyed(offered.pair, key), 24, group=TOP - 1, counter=counter)
        self.handshake(gate, hand)
        self.rekeyed(gate, hand)
        self.to_all(gate, 25, [hand])
        self.forget_subject()
        self.handshake(gate, hand)
        self.to_all(gate, 26, [hand])

    def rogue_replies(self, gate, hand):
        """At a gate: replies with nonces that no handheld draws, and a reply for the pair in use."""
        begin = self.act(gate, INVITE, hand.number)
        anonce = cut(begin).anonce
        strange = le(200, 1) + le(60000, 2) + le(TOP - 1, 8) + self.dice.bytes(21)
        for snonce in (strange, anonce, bytes(32)):
            pair = cut(begin).pair._replace(snonce=snonce)
            keyed = Keyed(pair, pairwise_key(gate.secrets[hand.number], pair))
            self.rogue(REPLY, keyed)
            self.rogue(REPLY, keyed)
        self.rogue(TAKEN, keyed)
        self.rogue(LOAD, keyed, 27, counter=0)
        reply = self.rogue(REPLY, keyed)
        self.hear(gate, flipped(self.dice, reply, 68, 84), "damaged reply: tag")
        self.handshake(gate, hand)

    # Scenes of the air

    def scenes(self):
        for place in range(len(self.subject.peers)):
            gate, hand = self.sides(place)
            _, reply, take, taken = self.handshake(gate, hand)
            load, up = self.down(gate, hand, 30 + place), self.up(gate, hand, 40 + place)
            for end, data in ((hand, take), (gate, taken), (gate, reply), (hand, load), (gate, up)):
                self.hear(end, data, "replayed")
            self.peer_forgets(gate, hand, take, load)
            self.late_renews(gate, hand)
            self.late_take(gate, hand)
            self.two_invitations(gate, hand)

    def peer_forgets(self, gate, hand, take, load):
        """The subject's peer is switched off; the old messages bring nothing, a new handshake does."""
        peer = hand if self.kind == "gate" else gate
        self.act(peer, FORGET)
        for end, data in ((hand, take), (hand, load)):
            self.hear(end, data, "replayed")
        self.down(gate, hand, 50)
        self.up(gate, hand, 51)
        self.handshake(gate, hand)
        self.down(gate, hand, 52)
        self.up(gate, hand, 53)
        self.cases["forgotten by the peer, and a new handshake"] += 1

    def late_renews(self, gate, hand):
        """Renews in the wrong order, and one for a pair that is no more in use."""
        renews = []
        for _ in range(3):
            self.act(gate, ROTATE)
            renews.append(self.act(gate, REKEY, hand.number))
        for place in (0, 2, 1, 2):
            self.hear(hand, renews[place], "reordered")
        frames = [self.to_all(gate, 60 + n) for n in range(4)]
        for place in (1, 0, 3, 2, 3):
            self.hear(hand, frames[place], "reordered")
        self.hear(hand, self.act(gate, REKEY, hand.number))
        self.handshake(gate, hand)
        self.hear(hand, renews[2], "replayed")

    def late_take(self, gate, hand):
        """A take that comes after frames to all: it doesn't put the floor back. One that comes again after a new key."""
        begin = self.act(gate, INVITE, hand.number)
        reply = self.hear(hand, begin)
        take = self.hear(gate, reply)
        frame = self.to_all(gate, 70, [hand])
        taken = self.hear(hand, take)
        self.hear(hand, frame, "replayed")
        self.act(gate, ROTATE)
        self.hear(gate, reply, "replayed")
        self.hear(gate, taken)
        self.hear(hand, take, "replayed")
        self.hear(gate, reply, "replayed")

    def two_invitations(self, gate, hand):
        """Two invitations, their begins heard in the wrong order; and a reply answered twice."""
        begins = [self.act(gate, INVITE, hand.number) for _ in range(2)]
        replies = [self.hear(hand, begin) for begin in reversed(begins)]
        take = self.hear(gate, replies[0])
        again = self.hear(gate, replies[0], "replayed")
        self.hear(gate, replies[1], "old reply after a new invitation")
        for data in (take, again):
            self.hear(hand, data)
        reply = self.hear(hand, begins[1], "replayed")
        take = self.hear(gate, reply)
        taken = self.hear(hand, take)
        for _ in range(2):
            self.hear(gate, taken)
        self.taken_too_late(gate, hand)

    def taken_too_late(self, gate, hand):
        """A new invitation takes the offer back: taken comes too late, and the gate goes on under the key that it had."""
        begin = self.act(gate, INVITE, hand.number)
        taken = self.hear(hand, self.hear(gate, self.hear(hand, begin)))
        self.act(gate, INVITE, hand.number)
        self.hear(gate, taken, "taken after a new invitation")
        self.down(gate, hand, 72)
        self.up(gate, hand, 73)

    # The random play

    def random_step(self):
        steps = (
            (26, self.deliver), (12, self.replay), (13, self.random_load), (5, self.random_all), (4, self.random_invite),
            (5, self.random_handshake), (2, self.random_rotate), (4, self.random_rekey), (1, self.random_forget),
            (2, self.random_peer_forgets), (8, self.random_damage), (2, self.random_length), (3, self.random_other),
            (2, self.random_begin), (2, self.random_line), (2, self.random_absent),
        )  # fmt: skip
        roll = self.dice.below(sum(weight for weight, _ in steps))
        for weight, step in steps:
            if roll < weight:
                return step()
            roll -= weight

    def deliver(self):
        """One of the messages under way, mostly the eldest; sometimes one is lost, or stays under way to come again."""
        if len(self.pending) > 30:
            self.pending = self.pending[-15:]
        if not self.pending:
            return
        place = 0 if self.dice.chance(65) else self.dice.below(len(self.pending))
        end, data = self.pending[place]
        if not self.dice.chance(15):
            del self.pending[place]
        if not self.dice.chance(10):
            self.hear(end, data, "reordered" if place else "in order")

    def to_subject(self):
        """A message that is on the air for the subject, mostly a late one."""
        recent = self.air[-40:] if self.dice.chance(60) else self.air
        mine = [data for receivers, data in recent if self.subject in receivers]
        return self.dice.pick(mine) if mine else None

    def replay(self):
        data = self.to_subject()
        if data:
            self.hear(self.subject, data, "replayed")

    def random_body(self):
        return self.dice.pick([self.dice.below(100), self.dice.below(1 << 32), self.dice.below(TOP), TOP - 1])

    def random_load(self):
        gate, hand = self.any_sides()
        if self.dice.chance(50):
            load, end = self.act(gate, SEND, hand.number, self.random_body()), hand
        else:
            load, end = self.act(hand, HAND_SEND, gate.number, self.random_body()), gate
        if load and self.dice.chance(60):
            self.hear(end, load)

    def random_all(self):
        gate, hand = self.any_sides()
        self.to_all(gate, self.random_body(), [hand] if self.dice.chance(60) else [])

    def random_invite(self):
        gate, hand = self.any_sides()
        self.act(gate, INVITE, hand.number)

    def random_handshake(self):
        self.handshake(*self.any_sides())

    def random_rotate(self):
        self.act(self.any_sides()[0], ROTATE)

    def random_rekey(self):
        gate, hand = self.any_sides()
        self.act(gate, REKEY, hand.number)

    def random_forget(self):
        if self.dice.chance(50):
            self.forget_subject()

    def random_peer_forgets(self):
        gate, hand = self.any_sides()
        self.act(hand if self.kind == "gate" else gate, FORGET)

    def random_damage(self):
        data = self.to_subject()
        if data:
            self.damage(data, *self.dice.pick(list(regions(data[0]))))

    def random_length(self):
        data = self.to_subject() or b"\x00"
        if self.dice.chance(50):
            self.hear(self.subject, data + self.dice.bytes(1 + self.dice.below(40)), "lengthened")
        else:
            self.hear(self.subject, data[: 1 + self.dice.below(len(data) - 1)] if len(data) > 1 else data, "cut")

    def random_other(self):
        """Something said by anyone, heard by the subject, whoever it is for; and now and then others meet."""
        if self.dice.chance(20):
            self.handshake(self.dice.pick(self.gates), self.dice.pick(self.hands))
        receivers, data = self.dice.pick(self.air)
        self.hear(self.subject, data, "replayed" if self.subject in receivers else "for others")

    def random_begin(self):
        gate, hand = self.any_sides()
        if self.dice.chance(70):
            nonce = le(0, 1) + le(gate.number, 2) + le(self.dice.below(gate.drawn + 2), 8) + self.dice.bytes(21)
        else:
            nonce = self.dice.bytes(8) + bytes(3) + self.dice.bytes(21)
        self.hear(hand, encode(Message(BEGIN, gate=gate.number, hand=hand.number, anonce=nonce)), "invented begin")

    def random_line(self):
        roll = self.dice.below(4)
        if roll == 0:
            self.tell(self.dice.pick([b"act 1 2", b"hear 00 11", b"listen 00", b"act a b c", b"act 1 2 3 4", b"?"]))
        elif roll == 1:
            self.odd_hex(b"hear " + self.dice.bytes(1 + self.dice.below(40)).hex().encode()[1:])
        elif roll == 2:
            self.comment(f"line {len(self.lines) + 1}")
        else:
            self.act(self.subject, 0, len(self.subject.peers) + self.dice.below(600), 1)

    def random_absent(self):
        data = self.to_subject()
        if data and data[0] != ALL:
            name = "hand" if self.kind == "gate" else "gate"
            count = len(self.subject.peers)
            place = count + self.dice.below(256 - count)
            self.hear(self.subject, with_number(data, name, place), "from an absent end")

    # The end of the entropy

    def run_dry(self):
        """All meet; then the entropy is cut off behind three more nonces and 20 bytes, these are drawn, and loads go on."""
        self.comment("all meet once more, then the entropy runs out")
        for place in range(len(self.subject.peers)):
            self.handshake(*self.sides(place))
        left = NONCE_ENTROPY * (self.subject.drawn + 3) + NONCE_ENTROPY - 1
        self.subject.entropy = self.subject.entropy[:left]
        gate, hand = self.sides(1)
        for _ in range(3):
            begin = self.act(gate, INVITE, hand.number)
            reply = self.hear(hand, begin)
        self.dry = True
        for place in (0, 2, 3):
            self.handshake(*self.sides(place))
        reply = self.hear(hand, begin, "replayed") or reply
        self.comment("the handshake that was begun with the last nonce can still end")
        self.invite_in_vain(hand)
        take = self.hear(gate, reply)
        self.invite_in_vain(hand)
        self.hear(gate, self.hear(hand, take))
        self.down(gate, hand, 80)
        self.up(gate, hand, 81)
        self.comment("loads and frames to all go on")
        for _ in range(25):
            self.random_load()
            self.random_all()
            self.random_rekey()
            self.deliver()
        self.switched_off_dry(gate, hand)

    def invite_in_vain(self, hand):
        """A gate without entropy: the open handshake and the offer stay."""
        if self.kind == "gate":
            self.act(self.subject, INVITE, hand.number)

    def switched_off_dry(self, gate, hand):
        self.comment("switched off without entropy: no new handshake, nothing is sent or delivered under the old keys")
        load = self.sent_to_subject(gate, hand, 90)
        self.forget_subject()
        self.hear(self.subject, load)
        for place in range(len(self.subject.peers)):
            self.handshake(*self.sides(place))
            self.act(self.subject, SEND if self.kind == "gate" else HAND_SEND, place, 91)
        self.to_all(gate, 92, [hand])

    def run(self):
        self.story()
        self.comment("lines of all sorts")
        self.lines_of_all_sorts()
        for act in (self.numbers_too_large, self.damaged_everywhere, self.numbers_at_the_limit, self.for_others,
                    self.from_absent, self.invented_begins, self.another_entropy, self.rogue_peer, self.scenes):  # fmt: skip
            self.comment(act.__name__.replace("_", " "))
            act()
        self.comment("a long random play")
        while len(self.lines) < LINES:
            self.random_step()
        self.run_dry()


# What has to come up


def wanted_of_both(kind):
    yield from ("line: comment", "line: blank or comment", "line: malformed", "line: no even run of hex digits")
    yield from ("line: hex in capitals", "line: more blanks", "line: number of more than 64 bits", "bytes of no message")
    yield from ("replayed", "reordered", "cut", "lengthened", "whole after damage", "for others", "from an absent end")
    yield from ("its own, back to it", "invented begin" if kind == "hand" else "reply to an invented begin", "flag above 1")
    yield from ("flag of the other direction", "counter at the limit", "anonce at the limit", "snonce at the limit")
    yield from ("another entropy under a right tag", "opened body of 2^49 or more", "rogue load")
    yield from ("forgotten by the peer, and a new handshake", "act: forget", "act: send", "act: send, in vain")
    yield from ("act: send, nobody there", "act: send, body too large", "load delivered", "load below the floor")
    yield from ("load: nothing, pair only offered", "load: nothing, pair not held", "refused 1: load", "refused 3: load")
    yield from ("without entropy: load delivered", "without entropy: act: send")
    for heard in HEARS[kind]:
        yield from (f"damaged {KINDS[heard]}: {region}" for region, _, _ in regions(heard))


WANTED = {
    "gate": (
        "act: invite", "act: invite, nobody there", "act: send to all", "act: send to all, body too large", "act: rotate",
        "act: rekey", "act: rekey, in vain", "act: rekey, nobody there", "reply answered", "reply again: take again",
        "reply: an offer replaced", "reply to an old handshake", "reply with no open handshake",
        "old reply after a new invitation", "taken after a new invitation", "taken: installed", "taken: installed over another",
        "taken: nothing, pair in use", "taken: nothing, pair not held", "refused 1: reply", "refused 1: taken",
        "refused 2: begin", "refused 2: reply", "refused 2: take", "refused 2: taken", "refused 2: renew", "refused 2: load",
        "refused 2: all", "refused 3: reply", "refused 3: taken", "refused 4: reply", "refused 4: no kind", "rogue reply",
        "without entropy: act: invite, in vain", "without entropy: act: send to all", "without entropy: act: rekey",
        "without entropy: taken: installed over another", "without entropy: act: send, in vain",
    ),
    "hand": (
        "begin answered", "begin: an offer replaced", "begin without entropy", "take: installed, a higher group key",
        "take: installed, group floor raised", "take: installed, group floor kept", "take: installed, a lower group key",
        "take: installed, no group key in it", "take again: taken again", "take for no pair held",
        "renew: a higher group key", "renew: a lower group key", "renew: group floor raised", "renew: group floor kept",
        "renew: no group key in it", "renew: nothing, pair in use", "renew: nothing, pair only offered",
        "renew: nothing, pair not held", "all delivered", "all below the floor", "all under group key 0",
        "all under group key not had", "group at the limit", "round at the limit", "rogue take", "rogue renew", "rogue all",
        "refused 1: begin", "refused 1: take", "refused 1: renew", "refused 1: all", "refused 2: begin", "refused 2: reply",
        "refused 2: take", "refused 2: taken", "refused 2: renew", "refused 2: load", "refused 2: all", "refused 3: take",
        "refused 3: renew", "refused 3: all", "refused 4: take", "refused 4: no kind",
        "without entropy: begin without entropy", "without entropy: all delivered", "without entropy: act: send, in vain",
        "without entropy: take: installed, group floor kept",
    ),
}  # fmt: skip


def report(play):
    """Counts on standard error; what is wanted and did not come up ends the script."""
    words = Counter(line.split()[0].decode("latin-1") for line in play.lines if line.split())
    texts = Counter(" ".join(text.split()[:2]) if text[0] != "s" else "say" for text in play.answers)
    kinds = Counter("say " + KINDS[int(text[4:6], 16)] for text in play.answers if text.startswith("say"))
    print(f"{play.kind}: {len(play.lines)} lines, {len(play.answers)} answers, {play.subject.drawn} nonces", file=sys.stderr)
    shown = {"hear lines": words["hear"], "act lines": words["act"], **texts, **kinds, **play.cases}
    for name in sorted(shown):
        print(f"  {shown[name]:5} {name}", file=sys.stderr)
    missing = [name for name in (*wanted_of_both(play.kind), *WANTED[play.kind]) if not play.cases[name]]
    require(not missing, f"{play.kind}: did not come up: {', '.join(missing)}")
    require(2000 <= len(play.lines) <= 3000, f"{play.kind}: {len(play.lines)} lines")


def files_of(play):
    """The files of a run by their names."""
    subject, file = play.subject, f"{play.kind}.bin"
    keys = ([subject.own] if play.kind == "gate" else []) + subject.secrets
    return {
        "args": f"{subject.number}\n{len(subject.peers)}\n{file}\n".encode(),
        "stdin": b"".join(line + b"\n" for line in play.lines),
        "stdout": "".join(text + "\n" for text in play.answers).encode(),
        f"data/{file}": b"".join(keys) + subject.entropy,
    }


def write(folder, files):
    for name, data in files.items():
        path = folder / name
        path.parent.mkdir(parents=True, exist_ok=True)
        path.write_bytes(data)


def differing(folder, files):
    return [name for name, data in files.items() if not (folder / name).is_file() or (folder / name).read_bytes() != data]


def rerun(folder, kind):
    """The run once more, from its files, by the program: it has to print the same."""
    program = [sys.executable, str(Path(reference.__file__).resolve()), kind, *(folder / "args").read_text().split()]
    done = subprocess.run(program, input=(folder / "stdin").read_bytes(), capture_output=True, cwd=folder / "data")
    require(done.returncode == 0 and done.stdout == (folder / "stdout").read_bytes(), f"{folder}: a rerun prints otherwise")


def main():
    parser = argparse.ArgumentParser(description="Makes the known-answer runs of the programs gate and hand.")
    parser.add_argument("out", type=Path, help="the folder that gets gate/ and hand/")
    parser.add_argument("--seed", type=int, default=1)
    parser.add_argument("--check", action="store_true", help="write nothing, compare with what stands there")
    words = parser.parse_args()
    for kind in SUBJECT:
        play = Play(words.seed, kind)
        play.run()
        report(play)
        files, folder = files_of(play), words.out / kind
        if not words.check:
            write(folder, files)
        require(not differing(folder, files), f"{folder}: other than made by seed {words.seed}: {differing(folder, files)}")
        rerun(folder, kind)


if __name__ == "__main__":
    main()
