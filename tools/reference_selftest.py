"""The worked cases, the known attacks and the formats, on bytes, tried on tools/reference.py (`reference.py selftest`)."""

import io
import subprocess
import sys
import tempfile
from copy import deepcopy
from hashlib import shake_256
from pathlib import Path

import reference
from reference import ALL, LIMIT, LOAD, NOTHING, RENEW, TAKE, TAKEN, TOP, Gate, Hand, Message, Refused
from reference import cut, group_key, le, length_of, nonce_numbers, parts_of, sealed, shake, tagged

TESTS = []


def test(function):
    TESTS.append(function)
    return function


INVITE, SEND, SEND_ALL, ROTATE, REKEY, FORGET = range(6)
HAND_SEND, HAND_FORGET = 0, 1


class Deck:
    """Gates and handhelds that share secrets, each with so many nonces, and no air between: a test hands bytes over."""

    def __init__(self, gates=1, hands=1, nonces=20):
        secret = lambda g, s: shake(32, b"secret", le(g, 1), le(s, 2))
        entropy = lambda who, i: shake(21 * nonces, b"entropy", who, le(i, 2))
        self.gates = [
            Gate(g, shake(32, b"own", le(g, 1)), [secret(g, s) for s in range(hands)], entropy(b"g", g))
            for g in range(gates)
        ]
        self.hands = [Hand(s, [secret(g, s) for g in range(gates)], entropy(b"h", s)) for s in range(hands)]
        self.gate, self.hand = self.gates[0], self.hands[0]

    def meet(self):
        """A whole handshake of gate 0 and handheld 0: its four messages."""
        begin = self.gate.act(INVITE, 0, 0).says
        reply = self.hand.hear(begin).says
        take = self.gate.hear(reply).says
        taken = self.hand.hear(take).says
        assert self.gate.hear(taken) == NOTHING
        return begin, reply, take, taken

    def down(self, body):
        return self.gate.act(SEND, 0, body).says

    def up(self, body):
        return self.hand.act(HAND_SEND, 0, body).says

    def to_all(self, body):
        return self.gate.act(SEND_ALL, 0, body).says

    def key(self):
        return self.hand.peers[0].in_use.key

    def pair(self):
        return self.hand.peers[0].in_use.pair._asdict()


def refused(end, data):
    """The number that hearing would be refused with; a refused message changes nothing."""
    tried = deepcopy(end)
    try:
        tried.hear(data)
    except Refused as cause:
        assert vars(tried) == vars(end)
        return cause.number
    return 0


def changes(end, data):
    """Whether hearing says, delivers or changes anything."""
    before = deepcopy(vars(end))
    try:
        step = end.hear(data)
    except Refused:
        step = NOTHING
    return step != NOTHING or vars(end) != before


# The worked cases


@test
def case_a_load_heard_twice():
    deck = Deck()
    deck.meet()
    assert deck.gate.peers[0].in_use == deck.hand.peers[0].in_use != None
    load = deck.down(7)
    assert deck.hand.hear(load) == (None, (0, 7))
    assert deck.hand.hear(load) == NOTHING
    load = deck.up(8)
    assert deck.gate.hear(load) == (None, (0, 8))
    assert deck.gate.hear(load) == NOTHING


@test
def case_b_take_again():
    deck = Deck()
    _, _, take, taken = deck.meet()
    first, down = deck.up(1), deck.down(2)
    deck.hand.hear(down)
    before = deepcopy(vars(deck.hand))
    assert deck.hand.hear(take).says == taken
    assert vars(deck.hand) == before
    assert cut(first).counter == 0 and cut(deck.up(3)).counter == 1
    assert deck.hand.hear(down) == NOTHING


@test
def case_c_old_reply():
    deck = Deck()
    _, reply, _, _ = deck.meet()
    deck.gate.act(INVITE, 0, 0)
    assert deck.gate.hear(reply) == NOTHING


@test
def case_d_begin_twice():
    deck = Deck()
    begin = deck.gate.act(INVITE, 0, 0).says
    replies = [deck.hand.hear(begin).says for _ in range(2)]
    takes = [deck.gate.hear(reply).says for reply in replies]
    assert cut(takes[0]).pair != cut(takes[1]).pair
    assert deck.hand.hear(takes[0]) == NOTHING and deck.hand.peers[0].in_use is None
    taken = deck.hand.hear(takes[1]).says
    assert deck.hand.peers[0].in_use.pair == cut(takes[1]).pair
    deck.gate.hear(taken)
    assert deck.gate.peers[0].in_use == deck.hand.peers[0].in_use


@test
def case_e_handheld_forgets():
    deck = Deck()
    _, _, take, _ = deck.meet()
    old = deck.hand.peers[0].in_use
    deck.hand.act(HAND_FORGET, 0, 0)
    assert deck.hand.hear(take) == NOTHING and deck.hand.peers[0].in_use is None
    deck.meet()
    assert deck.hand.peers[0].in_use.pair != old.pair and deck.key() != old.key


@test
def case_f_frames_to_all():
    deck = Deck()
    deck.meet()
    frames = [deck.to_all(body) for body in (10, 11, 12)]
    assert [cut(frame).counter for frame in frames] == [0, 1, 2]
    assert deck.hand.hear(frames[2]) == (None, (0, 12))
    assert deck.hand.hear(frames[0]) == NOTHING
    deck.gate.act(ROTATE, 0, 0)
    deck.hand.hear(deck.gate.act(REKEY, 0, 0).says)
    frame = deck.to_all(13)
    assert (cut(frame).group, cut(frame).counter) == (2, 0)
    assert deck.hand.hear(frame) == (None, (0, 13))


@test
def case_g_invented_begin():
    deck = Deck()
    begin, _, _, _ = deck.meet()
    reply = deck.hand.hear(begin).says
    assert reply is not None
    assert not changes(deck.gate, reply)
    assert deck.hand.hear(deck.down(5)).delivers == (0, 5)


# What would pass a quick look


@test
def attack_old_take():
    """The take of the handshake before last installs nothing and is not answered."""
    deck = Deck()
    _, _, take, _ = deck.meet()
    deck.meet()
    assert not changes(deck.hand, take)


@test
def attack_switched_off():
    """Who forgets goes on with nonces where it was; no two agree, in numbers or in entropy."""
    deck = Deck()
    nonces = []
    for _ in range(4):
        deck.meet()
        nonces += [deck.pair()["anonce"], deck.pair()["snonce"]]
        deck.hand.act(HAND_FORGET, 0, 0)
        deck.gate.act(FORGET, 0, 0)
    assert len({nonce_numbers(nonce) for nonce in nonces}) == len({nonce[11:] for nonce in nonces}) == 8
    assert [nonce_numbers(nonce) for nonce in nonces[:4]] == [(0, 0, 0), (1, 0, 0), (0, 0, 1), (1, 0, 1)]


@test
def attack_wrong_reply_first():
    """A reply does not close the handshake: the handheld's later one is still answered, and its pair installed."""
    deck = Deck()
    begin = deck.gate.act(INVITE, 0, 0).says
    first = deck.hand.hear(begin).says
    deck.hand.act(HAND_FORGET, 0, 0)
    second = deck.hand.hear(begin).says
    assert deck.gate.hear(first).says is not None
    take = deck.gate.hear(second).says
    assert deck.gate.hear(deck.hand.hear(take).says) == NOTHING
    assert deck.gate.peers[0].in_use == deck.hand.peers[0].in_use != None


@test
def attack_old_renew():
    """A renew caught and sent late puts back neither the group key nor its floor."""
    deck = Deck()
    deck.meet()
    old = deck.gate.act(REKEY, 0, 0).says
    deck.gate.act(ROTATE, 0, 0)
    new = deck.gate.act(REKEY, 0, 0).says
    deck.hand.hear(new)
    frame = deck.to_all(1)
    deck.hand.hear(frame)
    for renew in (old, new):
        assert not changes(deck.hand, renew)
    assert deck.hand.peers[0].group == 2 and deck.hand.hear(frame) == NOTHING


@test
def attack_old_take_and_floor():
    """A take said again carries the floor of its time; the floor of frames to all is never lowered."""
    deck = Deck()
    _, _, take, _ = deck.meet()
    frame = deck.to_all(1)
    deck.hand.hear(frame)
    deck.hand.hear(take)
    assert deck.hand.hear(frame) == NOTHING
    begin = deck.gate.act(INVITE, 0, 0).says
    take = deck.gate.hear(deck.hand.hear(begin).says).says
    later = deck.to_all(2)
    deck.hand.hear(later)
    deck.hand.hear(take)
    assert deck.hand.peers[0].group_floor == 2 and deck.hand.hear(later) == NOTHING


@test
def attack_forgets_and_hears_frames_again():
    """A handheld that forgets and meets again takes no frame to all that was sent before."""
    deck = Deck()
    deck.meet()
    frames = [deck.to_all(body) for body in range(3)]
    for frame in frames:
        deck.hand.hear(frame)
    deck.hand.act(HAND_FORGET, 0, 0)
    deck.meet()
    assert all(deck.hand.hear(frame) == NOTHING for frame in frames)
    assert deck.hand.hear(deck.to_all(9)).delivers == (0, 9)


@test
def attack_counters_at_the_top():
    """Counters end at 2^48: the last one is used, then nothing is sent, and none begins again."""
    deck = Deck()
    deck.meet()
    for end in (deck.gate, deck.hand):
        end.peers[0].counter = LIMIT - 1
    assert cut(deck.up(1)).counter == cut(deck.down(1)).counter == LIMIT - 1
    assert deck.up(1) is None and deck.down(1) is None
    deck.gate.group_counter = LIMIT - 1
    assert cut(deck.to_all(1)).counter == LIMIT - 1 and deck.to_all(1) is None
    deck.gate.peers[0].round = LIMIT - 1
    assert cut(deck.gate.act(REKEY, 0, 0).says).round == LIMIT
    assert deck.gate.act(REKEY, 0, 0) == NOTHING and deck.gate.peers[0].round == LIMIT


@test
def attack_group_keys_at_the_top():
    deck = Deck()
    deck.gate.group = LIMIT - 1
    deck.gate.act(ROTATE, 0, 0)
    assert cut(deck.to_all(1)).group == LIMIT and deck.gate.group_counter == 1
    deck.gate.act(ROTATE, 0, 0)
    assert (deck.gate.group, deck.gate.group_counter) == (LIMIT, 1)
    deck.gate.act(FORGET, 0, 0)
    assert deck.to_all(1) is None and deck.gate.act(ROTATE, 0, 0) == NOTHING and deck.to_all(1) is None


@test
def attack_draws_at_the_top():
    deck = Deck()
    deck.meet()
    begin = deck.gate.act(INVITE, 0, 0).says

    class Endless:
        def __getitem__(self, part):
            return bytes(part.stop - part.start)

    for end in (deck.gate, deck.hand):
        end.entropy, end.drawn = Endless(), LIMIT - 1
    assert nonce_numbers(cut(deck.hand.hear(begin).says).snonce)[2] == LIMIT - 1
    assert deck.hand.hear(begin) == NOTHING and deck.hand.drawn == LIMIT
    assert deck.gate.act(INVITE, 0, 0).says is not None and deck.gate.act(INVITE, 0, 0) == NOTHING


@test
def attack_damaged_bits():
    """No message with one bit damaged is heard; a begin is refused, for another, or answered in vain."""
    deck = Deck()
    deck.meet()
    deck.gate.act(ROTATE, 0, 0)
    renew, load, frame = deck.gate.act(REKEY, 0, 0).says, deck.down(1), deck.to_all(1)
    up = deck.up(2)
    begin = deck.gate.act(INVITE, 0, 0).says
    reply = deck.hand.hear(begin).says
    gate = deepcopy(deck.gate)
    take = deck.gate.hear(reply).says
    hand = deepcopy(deck.hand)
    hand.hear(renew)
    taken = deepcopy(deck.hand).hear(take).says
    tries = [(deck.hand, take), (deck.hand, renew), (deck.hand, load), (hand, frame)]
    for end, data in tries + [(gate, reply), (deck.gate, taken), (deck.gate, up)]:
        assert changes(deepcopy(end), data)
        for bit in range(8 * len(data)):
            damaged = bytearray(data)
            damaged[bit // 8] ^= 1 << bit % 8
            assert not changes(end, bytes(damaged)), (cut(data), bit)


@test
def attack_early_begin():
    """The gate's next nonce, invented before it invites: the entropy can't be guessed, so the reply is refused 3."""
    deck = Deck()
    guess = le(0, 1) + le(0, 2) + le(0, 8) + bytes(21)
    early = deck.hand.hear(reference.encode(Message(reference.BEGIN, anonce=guess))).says
    assert not changes(deck.gate, early)
    deck.gate.act(INVITE, 0, 0)
    assert refused(deck.gate, early) == 3


# Bytes


@test
def bytes_of_a_load():
    """One load, its key and its tag, written out once more straight from hashlib."""
    deck = Deck()
    deck.meet()
    hand, load = deck.hand, deck.up(0x0102030405)
    digest = lambda text, length: shake_256(text).digest(length)
    anonce = bytes(11) + deck.gate.entropy[:21]
    snonce = b"\x01" + bytes(10) + hand.entropy[:21]
    key = digest(b"pair" + hand.secrets[0] + anonce + snonce, 32)
    stream = digest(b"seal" + key + b"\x00" + bytes(8), 8)
    body = bytes(a ^ b for a, b in zip(bytes([5, 4, 3, 2, 1, 0, 0, 0]), stream))
    covered = b"\x05\x00" + bytes(8) + body + b"\x00\x00\x00" + anonce + snonce
    assert load == covered + digest(b"mark" + key + covered, 16)


@test
def bytes_of_a_renew_and_a_frame():
    deck = Deck(gates=3, hands=2)
    gate, hand = deck.gates[2], deck.hands[1]
    begin = gate.act(INVITE, 1, 0).says
    take = gate.hear(hand.hear(begin).says).says
    gate.hear(hand.hear(take).says)
    gate.act(ROTATE, 0, 0)
    digest = lambda text, length: shake_256(text).digest(length)
    key, second = hand.peers[2].in_use.key, digest(b"all" + gate.own + b"\x02" + bytes(7), 32)
    renew, frame = gate.act(REKEY, 1, 0).says, gate.act(SEND_ALL, 0, 9).says
    stream = digest(b"keys" + key + b"\x01" + b"\x01" + bytes(7), 32)
    assert bytes(a ^ b for a, b in zip(renew[-48:-16], stream)) == second
    first = digest(b"all" + gate.own + b"\x01" + bytes(7), 32)
    stream = digest(b"take" + key + b"\x01" + b"\x01" + bytes(7), 32)
    assert bytes(a ^ b for a, b in zip(take[-48:-16], stream)) == first == hand.peers[2].group_key
    stream = digest(b"seal" + second + b"\x01" + bytes(8), 8)
    sealed_body = bytes(a ^ b for a, b in zip(b"\x09" + bytes(7), stream))
    covered = b"\x06\x02" + b"\x02" + bytes(7) + bytes(8) + sealed_body
    assert frame == covered + digest(b"mark" + second + covered, 16)
    assert begin == b"\x00\x02\x01\x00" + b"\x00\x02\x00" + bytes(8) + gate.entropy[:21]


@test
def lengths_by_kind():
    assert [length_of(kind) for kind in range(7)] == [36, 84, 132, 84, 140, 101, 42]


# Refusals


@test
def refusals_in_order():
    """4 before 1 before 2 before 3; a body is looked at only behind a right tag."""
    deck = Deck(gates=2, hands=2)
    deck.meet()
    hand, key, pair = deck.hand, deck.key(), deck.pair()
    wrong = bytes(32)
    unknown = b"\x09" + bytes(31)
    large = sealed(b"seal", key, 1, 0, le(TOP, 8))
    fits = sealed(b"seal", key, 1, 0, le(TOP - 1, 8))
    other = {**pair, "hand": 1}
    absent = {**pair, "gate": 2}
    load = lambda key, **values: tagged(key, Message(LOAD, **{"flag": 1, **pair, **values}))
    for number, data in [
        (4, b""), (4, b"\x07" + bytes(100)), (4, load(key)[:-1]), (4, load(key) + b"\x00"),
        (1, load(wrong, flag=2, **other)), (1, load(wrong, counter=TOP, **absent)), (1, load(key, counter=TOP)),
        (2, load(wrong, **other)), (2, load(wrong, **absent)), (2, load(wrong, flag=0)), (2, load(key, flag=0)),
        (3, load(wrong)), (3, load(wrong, sealed_body=large)), (1, load(key, sealed_body=large)),
        (0, load(key, sealed_body=fits)), (0, load(wrong, anonce=unknown)),
        (0, load(wrong, anonce=unknown, sealed_body=large)),
        (3, load(key, anonce=pair["anonce"][:31] + b"?")),
        (2, tagged(key, Message(TAKEN, **pair))), (2, tagged(wrong, Message(ALL, gate=2, group=1))),
        (0, tagged(wrong, Message(ALL, gate=1, group=1))), (3, tagged(wrong, Message(ALL, gate=0, group=1))),
        (0, tagged(wrong, Message(ALL, gate=0, group=0))), (0, tagged(wrong, Message(ALL, gate=0, group=2))),
        (1, reference.encode(Message(reference.BEGIN, gate=9, anonce=bytes(9) + b"\x02" + bytes(22)))),
    ]:  # fmt: skip
        assert refused(hand, data) == number, (number, data.hex())


@test
def another_entropy_is_refused():
    """Numbers as held, entropy not: 3, whatever the tag; for a reply also against the open handshake."""
    deck = Deck()
    _, _, take, taken = deck.meet()
    begin = deck.gate.act(INVITE, 0, 0).says
    reply = deck.hand.hear(begin).says
    start = {name: at for name, at, _ in parts_of(reference.REPLY)}

    def forged(data, part):
        changed = bytearray(data)
        changed[start[part] + 31] ^= 1
        pair = cut(bytes(changed)).pair
        return tagged(reference.pairwise_key(deck.gate.secrets[0], pair), Message(data[0], **pair._asdict()))

    assert refused(deck.gate, forged(reply, "anonce")) == 3
    other = deepcopy(deck.gate)
    assert other.hear(forged(reply, "snonce")).says is not None
    deck.gate.hear(reply)
    assert refused(deck.gate, forged(reply, "snonce")) == 3
    assert refused(deck.gate, forged(taken, "snonce")) == refused(deck.gate, forged(taken, "anonce")) == 3
    assert refused(other, reply) == 3
    assert changes(deck.hand, take)


@test
def refusals_at_a_gate():
    deck = Deck(gates=2, hands=2)
    deck.meet()
    key, pair = deck.key(), deck.pair()
    for number, changed in ((0, {}), (2, {"gate": 1}), (2, {"hand": 2}), (2, {"hand": 256})):
        assert refused(deck.gate, tagged(key, Message(TAKEN, **{**pair, **changed}))) == number, changed
    for kind in (reference.BEGIN, TAKE, RENEW, ALL):
        assert refused(deck.gate, tagged(key, Message(kind, **pair))) == (2 if kind != reference.BEGIN else 4)


@test
def nothing_under_a_pair_that_is_only_offered():
    """A right tag by the offered pair's key: loads are not delivered and a renew teaches nothing before take."""
    deck = Deck()
    begin = deck.gate.act(INVITE, 0, 0).says
    deck.gate.hear(deck.hand.hear(begin).says)
    pair, key = deck.hand.peers[0].offered
    for end, flag in ((deck.hand, 1), (deck.gate, 0)):
        body = sealed(b"seal", key, flag, 0, le(7, 8))
        load = tagged(key, Message(LOAD, flag=flag, sealed_body=body, **pair._asdict()))
        assert refused(end, load) == 0 and not changes(end, load)
        assert refused(end, load[:-1] + bytes([load[-1] ^ 1])) == 3
    renew = tagged(key, Message(RENEW, round=1, group=1, **pair._asdict()))
    assert refused(deck.hand, renew) == 0 and not changes(deck.hand, renew)


@test
def an_invitation_withdraws_the_offer():
    deck = Deck()
    begin = deck.gate.act(INVITE, 0, 0).says
    taken = deck.hand.hear(deck.gate.hear(deck.hand.hear(begin).says).says).says
    deck.gate.act(INVITE, 0, 0)
    assert not changes(deck.gate, taken) and deck.gate.peers[0].offered is None


@test
def install_begins_at_nought():
    """A new pair begins with counter, floor and round 0 at both ends; the group key and its floor stay."""
    deck = Deck()
    deck.meet()
    for _ in range(3):
        deck.hand.hear(deck.down(1))
        deck.gate.hear(deck.up(1))
        deck.hand.hear(deck.gate.act(REKEY, 0, 0).says)
        deck.hand.hear(deck.to_all(1))
    held = lambda peer: (peer.counter, peer.floor, peer.round)
    assert held(deck.hand.peers[0]) == held(deck.gate.peers[0])[:2] + (3,) == (3, 3, 3)
    deck.meet()
    assert held(deck.hand.peers[0]) == held(deck.gate.peers[0]) == (0, 0, 0)
    assert (deck.hand.peers[0].group, deck.hand.peers[0].group_floor) == (1, 3)


@test
def group_key_nought():
    """Number 0 is no group key: a take with it installs the pair and teaches nothing."""
    deck = Deck()
    begin = deck.gate.act(INVITE, 0, 0).says
    reply = cut(deck.hand.hear(begin).says).pair
    key = deck.hand.peers[0].offered.key
    assert deck.hand.hear(tagged(key, Message(TAKE, counter=5, **reply._asdict()))).says is not None
    peer = deck.hand.peers[0]
    assert peer.in_use.pair == reply and (peer.group, peer.group_floor) == (0, 0)
    deck.hand.hear(tagged(key, Message(RENEW, round=1, counter=7, **reply._asdict())))
    assert (peer.round, peer.group, peer.group_floor) == (1, 0, 0)
    body = sealed(b"seal", bytes(32), 1, 0, le(7, 8))
    assert refused(deck.hand, tagged(bytes(32), Message(ALL))) == 0
    assert not changes(deck.hand, tagged(bytes(32), Message(ALL, sealed_body=body)))


@test
def group_key_told_again():
    """It keeps its first bytes, only the floor may rise; a lower number, and a round that is not above, teach nothing."""
    deck = Deck()
    deck.gate.act(ROTATE, 0, 0)
    deck.meet()
    peer, key, pair = deck.hand.peers[0], deck.key(), deck.pair()
    told = ((1, 2, 5, 5), (2, 2, 3, 5), (3, 1, 9, 5), (3, 2, 9, 5), (2, 2, 9, 5), (4, 2, 9, 9))
    for round, group, counter, floor in told:
        renew = Message(RENEW, round=round, group=group, counter=counter, sealed_key=bytes(32), **pair)
        deck.hand.hear(tagged(key, renew))
        assert (peer.group, peer.group_floor, peer.group_key) == (2, floor, group_key(deck.gate.own, 2))


@test
def entropy_runs_out():
    """With fewer than 21 bytes no nonce is drawn, the step does nothing, and keys in use go on."""
    deck = Deck(nonces=2)
    for end in (deck.gate, deck.hand):
        end.entropy += bytes(20)
    deck.meet()
    begin = deck.gate.act(INVITE, 0, 0).says
    deck.hand.hear(begin)
    offered = deck.hand.peers[0].offered
    assert deck.gate.act(INVITE, 0, 0) == NOTHING and deck.gate.peers[0].handshake == cut(begin).anonce
    assert deck.hand.hear(begin) == NOTHING and deck.hand.peers[0].offered == offered
    assert deck.gate.hear(deck.up(4)).delivers == (0, 4)


# The examples of deck, on bytes


class Script:
    """Plays the lines of deck's scripts on bytes, and writes what deck prints: messages as rows of numbers."""

    def __init__(self, gates, hands):
        self.deck = Deck(gates, hands, nonces=200)
        self.sent, self.lines = [], []

    def row_of(self, data):
        """The row of a message: a nonce is three numbers, a body is opened, sealed keys and tags are not part of it."""
        message, numbers = cut(data), [data[0]]
        for name in reference.LAYOUT[message.kind]:
            if name in ("anonce", "snonce"):
                numbers += nonce_numbers(getattr(message, name))
            elif name == "sealed_body":
                numbers.append(reference.opened_body(self.key_of(message), message))
            elif name != "sealed_key":
                numbers.append(getattr(message, name))
        return " ".join(map(str, numbers))

    def key_of(self, message):
        gate = self.deck.gates[message.gate]
        if message.kind == ALL:
            return group_key(gate.own, message.group)
        return reference.pairwise_key(gate.secrets[message.hand], message.pair)

    def step(self, name, call, *words):
        """A call of one end: what it says is printed with its place, then what it delivers with the end's name."""
        try:
            answer = call(*words)
        except Refused:
            return
        if answer.says is not None:
            self.lines.append(f"sent {len(self.sent)} {self.row_of(answer.says)}")
            self.sent.append(answer.says)
        if answer.delivers is not None:
            self.lines.append(f"{name} hands on {self.row_of(*words)}")

    def hears(self, hand, data):
        message = cut(data)
        down = message.kind in (reference.BEGIN, TAKE, RENEW) or (message.kind == LOAD and message.flag == 1)
        if down or message.kind == ALL:
            number = hand if message.kind == ALL else message.hand
            self.step(f"hand {number}", self.deck.hands[number].hear, data)
        else:
            self.step(f"{message.gate}", self.deck.gates[message.gate].hear, data)

    def line(self, words):
        match words:
            case ["hears", hand, place]:
                if int(place) < len(self.sent):
                    self.hears(int(hand), self.sent[int(place)])
            case ["begins", gate, hand, *nonce]:
                kind, node, index = map(int, nonce)
                anonce = le(kind, 1) + le(node, 2) + le(index, 8) + bytes(21)
                begin = Message(reference.BEGIN, gate=int(gate), hand=int(hand), anonce=anonce)
                self.hears(0, reference.encode(begin))
            case ["hand", hand, "sends", gate, body]:
                self.step(f"hand {hand}", self.deck.hands[int(hand)].act, HAND_SEND, int(gate), int(body))
            case ["hand", hand, "forgets"]:
                self.step(f"hand {hand}", self.deck.hands[int(hand)].act, HAND_FORGET, 0, 0)
            case [gate, verb, *rest]:
                kind = ["invites", "sends", "all", "turns", "words", "forgets"].index(verb)
                numbers = [0, *map(int, rest)] if kind == SEND_ALL else [*map(int, rest), 0, 0]
                self.step(gate, self.deck.gates[int(gate)].act, kind, *numbers[:2])


@test
def examples_of_deck():
    """The scripts in examples/, played on bytes, give the rows that deck prints."""
    folder = Path(reference.__file__).resolve().parent.parent / "examples"
    scripts = sorted(path for path in folder.glob("*.txt") if path.with_suffix(".out").exists())
    assert len(scripts) >= 9
    for path in scripts:
        script = Script(1, 1)
        for line in path.read_text().splitlines():
            words = line.split()
            if words and not words[0].startswith("#"):
                script.line(words)
        assert script.lines == path.with_suffix(".out").read_text().splitlines(), path


# Lines and programs


def printed(end, text):
    out, err = io.StringIO(), io.StringIO()
    reference.play(end, io.BytesIO(text), out, err)
    return out.getvalue(), err.getvalue()


@test
def lines_that_do_nothing():
    deck = Deck(hands=300)
    before = deepcopy(vars(deck.gate))
    quiet = b"\n  \t\n# act 0 0 0\n  #act 0 0 0\nact 0 300 0\nact 1 0 5\nact 4 0 0\nact 0 18446744073709551616 0\n"
    assert printed(deck.gate, quiet) == ("", "")
    malformed = [
        b"act", b"act 0 0", b"act 0 0 0 0", b"act -1 0 0", b"act 0x0 0 0", b"Act 0 0 0", b"act 0 0 0\rx", b"hear 00 00",
        b"say 00", b"act +0 0 0", b"act 0 0 \xd9\xa1",
    ]  # fmt: skip
    out, err = printed(deck.gate, b"\n".join(malformed))
    assert out == "" and [line.split(":")[0] for line in err.splitlines()] == [f"line {n + 1}" for n in range(11)]
    assert vars(deck.gate) == before


@test
def lines_refused():
    deck = Deck()
    texts = [b"hear", b"hear ", b"hear 0", b"hear 0g", b"hear 000", b"hear 00\r", b"hear -0", b"hear 07", b"hear ff"]
    assert printed(deck.gate, b"\n".join(texts)) == ("refused 4\n" * len(texts), "")
    frame = deck.hand.hear(deck.gate.act(INVITE, 0, 0).says).says
    assert printed(deck.hand, b"hear %s\n" % frame.hex().upper().encode()) == ("refused 2\n", "")


@test
def lines_with_large_numbers():
    """Numbers are compared as they are: 256 is not 0, and the largest are the last act."""
    deck = Deck()
    deck.meet()
    quiet = b"act 1 0 562949953421312\nact 1 256 1\nact 1 65536 1\nact 2 0 1%s\n" % (b"0" * 5000)
    assert printed(deck.gate, quiet) == ("", "")
    out, _ = printed(deck.gate, b"\t act  001\t0 000562949953421311 ")
    assert printed(deck.hand, f"hear {out.split()[1].upper()}\n".encode()) == ("hand on 0 562949953421311\n", "")
    printed(deck.hand, b"act 256 0 0\n")
    assert deck.hand.peers[0].in_use is None
    printed(deck.gate, b"act 1%s 0 0\n" % (b"0" * 5000))
    assert deck.gate.peers[0].in_use is None and deck.gate.group == 2


@test
def programs_and_their_files():
    program = str(Path(reference.__file__))
    with tempfile.TemporaryDirectory() as folder:
        file = Path(folder) / "file"

        def run(*words, size=96, text=b""):
            file.write_bytes(bytes(size))
            done = subprocess.run([sys.executable, program, *words], input=text, capture_output=True)
            return done.returncode, done.stdout, done.stderr.count(b"\n")

        for words in (["gate", "0", "2"], ["hand", "511", "3"], ["gate", "254", "0"], ["hand", "0", "0"]):
            assert run(*words, str(file)) == (0, b"", 0), words
        assert run("gate", "0", "2", str(file), size=117, text=b"act 0 1 0\nact 0 1 0")[1].startswith(b"say 00000100")
        bad = (["gate", "0", "3"], ["hand", "0", "4"], ["gate", "255", "1"], ["hand", "512", "1"], ["gate", "0", "513"])
        for words in bad + (["hand", "0", "256"], ["gate", "-1", "1"], ["gate", "x", "1"], ["gate", "256", "1"]):
            assert run(*words, str(file)) == (1, b"", 1), words
        assert run("gate", "0", "1", str(Path(folder) / "none")) == (1, b"", 1)
        assert run("gate", "0", str(file)) == run("gate", "0", "1", str(file), "1") == run() == (1, b"", 1)


def main():
    failed = 0
    for tried in TESTS:
        try:
            tried()
            print(f"passed {tried.__name__}")
        except AssertionError as error:
            failed += 1
            print(f"FAILED {tried.__name__}: line {error.__traceback__.tb_next.tb_lineno} {error}")
    print(f"{len(TESTS) - failed} passed, {failed} failed")
    return 1 if failed else 0
