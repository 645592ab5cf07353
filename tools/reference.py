#!/usr/bin/env python3
"""Both ends of the radio on bytes, in plain Python: the answers that the programs `hand` and `gate` are compared with.

    tools/reference.py hand S G FILE     handheld S among G gates
    tools/reference.py gate N S FILE     gate N with S handhelds
    tools/reference.py selftest          the worked cases and the known attacks, on bytes

It is written from the rules, not from the proved code, and shares nothing with it: SHAKE256 is hashlib's.

The two programs read lines from standard input, one command each:

    hear HEX         these bytes come by radio; hex digits in either case
    act K N BODY     the end does something of itself. A gate: 0 invites handheld N, 1 sends BODY to N, 2 sends BODY to
                     all, 3 rotates its group key, 4 rekeys N, 5 and above forgets. A handheld: 0 sends BODY to gate N,
                     1 and above forgets

and print `say HEX` for what is sent by radio, then `hand on WHO BODY` for what is delivered, or `refused NUMBER`.
"""

import os
import re
import sys
from dataclasses import dataclass
from hashlib import shake_256
from hmac import compare_digest
from typing import NamedTuple, Optional

LIMIT = 1 << 48  # nonces of one end, frames under one key, group keys of a gate, rounds under one key
TOP = 1 << 49  # the numbers of a message, and bodies, are below this
MAX_GATES, MAX_HANDS = 255, 512
LARGEST = (1 << 64) - 1  # larger numbers in a line count as this one

FROM_HAND, FROM_GATE = 0, 1  # a load's flag, and the direction in the input of a keystream
NO_GROUP_KEY = 0

NO_MESSAGE, NOT_FOR_THIS_END, WRONG_TAG, NO_ROW = 1, 2, 3, 4


class Refused(Exception):
    """A message that is not heard: it changes nothing. `number` is the first cause that applies, 4 before 1, 2, 3."""

    def __init__(self, number):
        super().__init__(f"refused {number}")
        self.number = number


# Keys, tags, keystreams


def le(number, width):
    """A number as bytes, the lowest first."""
    return number.to_bytes(width, "little")


def shake(length, *parts):
    return shake_256(b"".join(parts)).digest(length)


def pairwise_key(secret, pair):
    """The key that a gate and a handheld make of their shared secret and of a nonce of each, the gate's first."""
    return shake(32, b"pair", secret, pair.anonce, pair.snonce)


def group_key(own, number):
    """A gate's key for frames to all, by its number, from the 32 bytes that only the gate has."""
    return shake(32, b"all", own, le(number, 8))


def tag(key, covered):
    """Sixteen bytes behind a message, over all the bytes before them as they are sent, that is over sealed bytes."""
    return shake(16, b"mark", key, covered)


def sealed(label, key, direction, counter, text):
    """Text added, exclusive or, to a keystream of its length. The same call opens it.

    The labels are `seal` for bodies, with the frame's counter; `keys` for the group key in a renew, with the round; `take`
    for the group key in a take, with the group key's number. The direction is 1 from the gate, else 0.
    """
    keystream = shake(len(text), label, key, le(direction, 1), le(counter, 8))
    return bytes(a ^ b for a, b in zip(text, keystream))


# Messages as bytes

BEGIN, REPLY, TAKE, TAKEN, RENEW, LOAD, ALL = range(7)
KINDS = ("begin", "reply", "take", "taken", "renew", "load", "all")

WIDTH = {
    "flag": 1, "gate": 1, "hand": 2, "round": 8, "group": 8, "counter": 8,
    "anonce": 32, "snonce": 32, "sealed_body": 8, "sealed_key": 32,
}  # fmt: skip
OPAQUE = ("anonce", "snonce", "sealed_body", "sealed_key")  # kept as bytes, the others are numbers
PAIR = ("gate", "hand", "anonce", "snonce")
LAYOUT = (
    ("gate", "hand", "anonce"),
    PAIR,
    ("group", "counter", *PAIR, "sealed_key"),
    PAIR,
    ("round", "group", "counter", *PAIR, "sealed_key"),
    ("flag", "counter", "sealed_body", *PAIR),
    ("gate", "group", "counter", "sealed_body"),
)
TAG = 16
NONCE_ENTROPY = 21


def nonce_numbers(nonce):
    """Kind (0 a gate, 1 a handheld), node and index: the first 11 of a nonce's 32 bytes. The rest is entropy."""
    return nonce[0], int.from_bytes(nonce[1:3], "little"), int.from_bytes(nonce[3:11], "little")


class Pair(NamedTuple):
    """A gate, a handheld and a nonce of each, as 32 bytes: it names their pairwise key."""

    gate: int
    hand: int
    anonce: bytes
    snonce: bytes

    def numbers(self):
        return self.gate, self.hand, nonce_numbers(self.anonce), nonce_numbers(self.snonce)


@dataclass(frozen=True)
class Message:
    """A message of any kind; fields that its kind has not are left as they are here."""

    kind: int
    gate: int = 0
    hand: int = 0
    flag: int = 0
    round: int = 0
    group: int = 0
    counter: int = 0
    anonce: bytes = bytes(32)
    snonce: bytes = bytes(32)
    sealed_body: bytes = bytes(8)
    sealed_key: bytes = bytes(32)

    @property
    def pair(self):
        return Pair(self.gate, self.hand, self.anonce, self.snonce)


def parts_of(kind):
    """The parts of a message of that kind as (name, from, to), in the order of its bytes, the kind and the tag with them."""
    at, parts = 1, [("kind", 0, 1)]
    for name in LAYOUT[kind]:
        parts.append((name, at, at + WIDTH[name]))
        at += WIDTH[name]
    if kind != BEGIN:
        parts.append(("tag", at, at + TAG))
    return parts


def length_of(kind):
    return parts_of(kind)[-1][2]


def encode(message):
    """The bytes that a tag is over: the kind, then the parts of its layout."""
    parts = [le(message.kind, 1)]
    for name in LAYOUT[message.kind]:
        value = getattr(message, name)
        parts.append(value if name in OPAQUE else le(value, WIDTH[name]))
    return b"".join(parts)


def tagged(key, message):
    covered = encode(message)
    return covered + tag(key, covered)


def cut(data):
    """Bytes as a message: by kind and length, no more. What can't be cut is refused 4."""
    if not data or data[0] >= len(KINDS) or len(data) != length_of(data[0]):
        raise Refused(NO_ROW)
    values = {}
    for name, start, end in parts_of(data[0]):
        part = data[start:end]
        if name != "tag":
            values[name] = part if name in OPAQUE else int.from_bytes(part, "little")
    return Message(**values)


def check_numbers(message):
    """A flag above 1, or any 8-byte number, a nonce's index too, of 2^49 or more is refused 1. A body counts as 0 here."""
    indices = (nonce_numbers(message.anonce)[2], nonce_numbers(message.snonce)[2])
    if message.flag > 1 or max(message.round, message.group, message.counter, *indices) >= TOP:
        raise Refused(NO_MESSAGE)


def opened_body(key, message):
    """The number under a load's or a frame's sealed body; of 2^49 or more it is refused 1."""
    direction = message.flag if message.kind == LOAD else FROM_GATE
    text = sealed(b"seal", key, direction, message.counter, message.sealed_body)
    body = int.from_bytes(text, "little")
    if body >= TOP:
        raise Refused(NO_MESSAGE)
    return body


# What both kinds of end hold and do


class Keyed(NamedTuple):
    """A pair as it is held: with the nonces' bytes and the key made of them."""

    pair: Pair
    key: bytes


@dataclass
class Endpoint:
    """What an end holds of the pairwise key with one peer."""

    offered: Optional[Keyed] = None
    in_use: Optional[Keyed] = None
    counter: int = 0  # of its own next frame
    floor: int = 0  # the least counter that it takes
    round: int = 0  # the last rekey round

    def install(self):
        """Takes the offered pair into use: nothing is offered any more; counter, floor and round are 0."""
        self.in_use, self.offered = self.offered, None
        self.counter = self.floor = self.round = 0

    def offers(self, pair):
        return self.offered is not None and self.offered.pair == pair

    def uses(self, pair):
        return self.in_use is not None and self.in_use.pair == pair

    def key_of(self, pair):
        """The key of a pair that is offered or, else, in use here; none for any other.

        A pair whose numbers agree with a held one's, but not the entropy of its nonces, is refused 3.
        """
        for held in (self.offered, self.in_use):
            if held is not None and held.pair.numbers() == pair.numbers():
                if held.pair != pair:
                    raise Refused(WRONG_TAG)
                return held.key
        return None


class Answer(NamedTuple):
    """What a step brings: bytes to say or none, and who it is from with the body to deliver, or none."""

    says: Optional[bytes] = None
    delivers: Optional[tuple] = None


NOTHING = Answer()


class End:
    """One end of the radio. `own` is the 32 bytes that a gate has for itself; a handheld has none."""

    origin = None  # the kind in its nonces: 0 a gate, 1 a handheld
    sends = None  # its direction

    def __init__(self, number, secrets, entropy):
        self.number = number
        self.secrets = secrets
        self.entropy = entropy
        self.drawn = 0
        self.reset_peers()

    def draw(self):
        """The next nonce, or none. The entropy of the n-th stands at 21n: forgetting keeps n, so no byte serves twice."""
        at = NONCE_ENTROPY * self.drawn
        fresh = self.entropy[at : at + NONCE_ENTROPY]
        if self.drawn >= LIMIT or len(fresh) < NONCE_ENTROPY:
            return None
        nonce = le(self.origin, 1) + le(self.number, 2) + le(self.drawn, 8) + fresh
        self.drawn += 1
        return nonce

    def seal(self, label, key, direction, counter, text):
        """Every text that an end seals passes here."""
        return sealed(label, key, direction, counter, text)

    def hear(self, data):
        """A message comes by radio. Refused: 4, then 1 and 2, then a wrong tag 3, then an opened body too large 1.

        An end without the key of the tag makes nothing of the message. A begin has no tag.
        """
        message = cut(data)
        check_numbers(message)
        self.check_address(message)
        if message.kind == BEGIN:
            return self.hear_begin(message)
        key = self.tag_key(message)
        if key is None:
            return NOTHING
        if not compare_digest(data[-TAG:], tag(key, data[:-TAG])):
            raise Refused(WRONG_TAG)
        body = opened_body(key, message) if message.kind in (LOAD, ALL) else None
        return self.hear_authentic(message, key, body)

    def hear_load(self, peer, who, message, body):
        """Under the pair in use, with a counter not below the floor: delivered, and the floor is above it from now on."""
        if not peer.uses(message.pair) or message.counter < peer.floor:
            return NOTHING
        peer.floor = message.counter + 1
        return Answer(delivers=(who, body))

    def send(self, peer, body):
        """A load under the pair in use, with the next counter."""
        if peer.in_use is None or peer.counter >= LIMIT or body >= TOP:
            return NOTHING
        pair, key = peer.in_use
        counter = peer.counter
        peer.counter += 1
        text = self.seal(b"seal", key, self.sends, counter, le(body, 8))
        load = Message(LOAD, flag=self.sends, counter=counter, sealed_body=text, **pair._asdict())
        return Answer(says=tagged(key, load))


# A handheld


@dataclass
class HandPeer(Endpoint):
    """What a handheld holds for one gate: also which of the gate's group keys it has, its bytes, and the floor under it."""

    group: int = NO_GROUP_KEY
    group_key: bytes = bytes(32)
    group_floor: int = 0

    def learn(self, number, counter, key):
        """A group key with the counter of the gate's next frame to all.

        A higher number: the key is had from now on, with the counter as floor. The same number, if there is one: the
        floor is raised to the counter, never lowered, and the bytes stay as they were. Else nothing.
        """
        if number > self.group:
            self.group, self.group_key, self.group_floor = number, key, counter
        elif number == self.group and number != NO_GROUP_KEY:
            self.group_floor = max(self.group_floor, counter)


class Hand(End):
    """A handheld; its peers are the gates."""

    origin, sends = 1, FROM_HAND

    def reset_peers(self):
        self.peers = [HandPeer() for _ in self.secrets]

    def check_address(self, message):
        """For a handheld are begin, take, renew and loads from the gate that name it, and every frame to all."""
        kind = message.kind
        named = kind in (BEGIN, TAKE, RENEW) or (kind == LOAD and message.flag == FROM_GATE)
        mine = kind == ALL or (named and message.hand == self.number)
        if not mine or message.gate >= len(self.peers):
            raise Refused(NOT_FOR_THIS_END)

    def tag_key(self, message):
        peer = self.peers[message.gate]
        if message.kind != ALL:
            return peer.key_of(message.pair)
        had = message.group != NO_GROUP_KEY and message.group == peer.group
        return peer.group_key if had else None

    def hear_begin(self, message):
        """Draws a nonce, if it can: the pair of both is offered, and what was offered is no more; says reply."""
        snonce = self.draw()
        if snonce is None:
            return NOTHING
        pair = Pair(message.gate, self.number, message.anonce, snonce)
        key = pairwise_key(self.secrets[message.gate], pair)
        self.peers[message.gate].offered = Keyed(pair, key)
        return Answer(says=tagged(key, Message(REPLY, **pair._asdict())))

    def hear_authentic(self, message, key, body):
        peer = self.peers[message.gate]
        if message.kind == TAKE:
            return self.hear_take(peer, message, key)
        if message.kind == RENEW:
            return self.hear_renew(peer, message, key)
        if message.kind == LOAD:
            return self.hear_load(peer, message.gate, message, body)
        return self.hear_all(peer, message, body)

    def hear_take(self, peer, message, key):
        """For the pair offered: installs it and learns the group key. For that or the pair in use: says taken."""
        if peer.offers(message.pair):
            peer.install()
            group_key = sealed(b"take", key, FROM_GATE, message.group, message.sealed_key)
            peer.learn(message.group, message.counter, group_key)
        elif not peer.uses(message.pair):
            return NOTHING
        return Answer(says=tagged(key, Message(TAKEN, **message.pair._asdict())))

    def hear_renew(self, peer, message, key):
        """For the pair in use, of a round above its own: that is its round now, and it learns the group key."""
        if peer.uses(message.pair) and message.round > peer.round:
            peer.round = message.round
            group_key = sealed(b"keys", key, FROM_GATE, message.round, message.sealed_key)
            peer.learn(message.group, message.counter, group_key)
        return NOTHING

    def hear_all(self, peer, message, body):
        """Under the group key that it has, with a pair in use, the counter not below the floor: delivered, once."""
        if peer.in_use is None or message.counter < peer.group_floor:
            return NOTHING
        peer.group_floor = message.counter + 1
        return Answer(delivers=(message.gate, body))

    def act(self, kind, gate, body):
        if kind == 0:
            return self.send(self.peers[gate], body) if gate < len(self.peers) else NOTHING
        self.reset_peers()  # forgets all but how many nonces it drew
        return NOTHING


# A gate


@dataclass
class GatePeer(Endpoint):
    """What a gate holds for one handheld: also the nonce of the open handshake, or none."""

    handshake: Optional[bytes] = None


class Gate(End):
    """A gate; its peers are the handhelds."""

    origin, sends = 0, FROM_GATE

    def __init__(self, number, own, secrets, entropy):
        super().__init__(number, secrets, entropy)
        self.own = own
        self.group = 1
        self.group_counter = 0  # of its next frame to all

    def reset_peers(self):
        self.peers = [GatePeer() for _ in self.secrets]

    def check_address(self, message):
        """For a gate are reply, taken and loads from the handheld that name it."""
        named = message.kind in (REPLY, TAKEN) or (message.kind == LOAD and message.flag == FROM_HAND)
        if not named or message.gate != self.number or message.hand >= len(self.peers):
            raise Refused(NOT_FOR_THIS_END)

    def tag_key(self, message):
        """Also of a reply to the open handshake: its nonce has to be the one that was drawn for it, in all 32 bytes."""
        peer = self.peers[message.hand]
        key = peer.key_of(message.pair)
        if key is not None or message.kind != REPLY or peer.handshake is None:
            return key
        if nonce_numbers(peer.handshake) != nonce_numbers(message.anonce):
            return None
        if peer.handshake != message.anonce:
            raise Refused(WRONG_TAG)
        return pairwise_key(self.secrets[message.hand], message.pair)

    def hear_authentic(self, message, key, body):
        peer = self.peers[message.hand]
        if message.kind == REPLY:
            return self.hear_reply(peer, message, key)
        if message.kind == TAKEN:
            return self.hear_taken(peer, message)
        return self.hear_load(peer, message.hand, message, body)

    def hear_reply(self, peer, message, key):
        """It answers the open handshake, and the pair is not in use: the pair is offered; says take.

        The handshake stays open: a later reply may be the right one.
        """
        if peer.handshake != message.anonce or peer.uses(message.pair):
            return NOTHING
        peer.offered = Keyed(message.pair, key)
        text = self.seal(b"take", key, FROM_GATE, self.group, group_key(self.own, self.group))
        take = Message(TAKE, group=self.group, counter=self.group_counter, sealed_key=text, **message.pair._asdict())
        return Answer(says=tagged(key, take))

    def hear_taken(self, peer, message):
        """For the pair offered: installs it, and the handshake is closed."""
        if peer.offers(message.pair):
            peer.install()
            peer.handshake = None
        return NOTHING

    def act(self, kind, hand, body):
        if kind == 2:
            return self.send_to_all(body)
        if kind == 3:
            return self.rotate()
        if kind >= 5:
            return self.forget()
        if hand >= len(self.peers):
            return NOTHING
        peer = self.peers[hand]
        if kind == 0:
            return self.invite(peer, hand)
        return self.send(peer, body) if kind == 1 else self.rekey(peer)

    def invite(self, peer, hand):
        """Draws a nonce, if it can: the handshake is open with it, nothing is offered; says begin."""
        anonce = self.draw()
        if anonce is None:
            return NOTHING
        peer.handshake, peer.offered = anonce, None
        return Answer(says=encode(Message(BEGIN, gate=self.number, hand=hand, anonce=anonce)))

    def send_to_all(self, body):
        """A frame under the group key, with its next counter."""
        if self.group_counter >= LIMIT or body >= TOP:
            return NOTHING
        key = group_key(self.own, self.group)
        counter = self.group_counter
        self.group_counter += 1
        text = self.seal(b"seal", key, FROM_GATE, counter, le(body, 8))
        return Answer(says=tagged(key, Message(ALL, gate=self.number, group=self.group, counter=counter, sealed_body=text)))

    def rotate(self):
        """A new group key, one higher, its counter 0."""
        if self.group < LIMIT:
            self.group += 1
            self.group_counter = 0
        return NOTHING

    def rekey(self, peer):
        """Tells a handheld with a pair in use the group key and its next counter: the round goes up; says renew."""
        if peer.in_use is None or peer.round >= LIMIT:
            return NOTHING
        pair, key = peer.in_use
        peer.round += 1
        text = self.seal(b"keys", key, FROM_GATE, peer.round, group_key(self.own, self.group))
        numbers = {"round": peer.round, "group": self.group, "counter": self.group_counter}
        return Answer(says=tagged(key, Message(RENEW, sealed_key=text, **numbers, **pair._asdict())))

    def forget(self):
        """All but how many nonces it drew and its group key's number; it takes the next one.

        If there is none it never sends to all again: the counter is at its limit.
        """
        self.reset_peers()
        if self.group < LIMIT:
            return self.rotate()
        self.group_counter = LIMIT
        return NOTHING


# Lines


class Malformed(Exception):
    """A line that is no command: it changes nothing and is told on standard error."""


def number_of(word):
    """Decimal digits as a number, 2^64 - 1 if it is more; none for other text."""
    if not re.fullmatch(rb"[0-9]+", word):
        return None
    digits = word.lstrip(b"0") or b"0"
    return LARGEST if len(digits) > 20 else min(int(digits), LARGEST)


def words_of(line):
    """Words stand between blanks: spaces, tabs, and a carriage return that ends the line. A line that begins with # has
    none."""
    if line.endswith(b"\r"):
        line = line[:-1]
    words = [word for word in line.replace(b"\t", b" ").split(b" ") if word]
    return [] if words and words[0].startswith(b"#") else words


def heard(end, words):
    """The answer to `hear`: text that is no even run of hex digits, and no text, is refused 4."""
    if len(words) > 1:
        raise Malformed("expected one run of hex digits behind hear")
    text = words[0] if words else b""
    if not re.fullmatch(rb"([0-9a-fA-F]{2})+", text):
        raise Refused(NO_ROW)
    return end.hear(bytes.fromhex(text.decode()))


def acted(end, words):
    numbers = [number_of(word) for word in words]
    if len(numbers) != 3 or None in numbers:
        raise Malformed("expected three numbers behind act: K N BODY")
    return end.act(*numbers)


def answer(end, line):
    """The lines that a line is answered with."""
    words = words_of(line)
    if not words:
        return []
    command = {b"hear": heard, b"act": acted}.get(words[0])
    if command is None:
        raise Malformed("expected hear HEX or act K N BODY")
    try:
        step = command(end, words[1:])
    except Refused as refused:
        return [f"refused {refused.number}"]
    said = [] if step.says is None else [f"say {step.says.hex()}"]
    delivered = [] if step.delivers is None else ["hand on {} {}".format(*step.delivers)]
    return said + delivered


def play(end, lines, out, err):
    """Answers line after line, each before the next is read. Lines are bytes."""
    for place, line in enumerate(lines, 1):
        try:
            answers = answer(end, line.removesuffix(b"\n"))
        except Malformed as cause:
            print(f"line {place}: {cause}", file=err, flush=True)
            continue
        for text in answers:
            print(text, file=out, flush=True)


# The programs


class Unusable(Exception):
    """Arguments or a FILE that no end can be made of."""


def index(word, name, bound):
    """An argument as a number that is below the bound."""
    number = number_of(os.fsencode(word))
    if number is None or number >= bound:
        raise Unusable(f"{name} is to be a number from 0 to {bound - 1}, not {word!r}")
    return number


def split_file(path, wanted):
    """The first so many keys of 32 bytes in FILE, and the entropy behind them, to the end."""
    try:
        with open(path, "rb") as file:
            data = file.read()
    except OSError as error:
        raise Unusable(f"{path}: {error.strerror}") from error
    if len(data) < 32 * wanted:
        raise Unusable(f"{path}: {wanted} times 32 bytes are wanted before the entropy, {len(data)} are there")
    return [data[32 * i : 32 * i + 32] for i in range(wanted)], data[32 * wanted :]


def make_hand(number, gates, path):
    """FILE has the secrets shared with each gate, gate by gate, then entropy to the end."""
    number = index(number, "S", MAX_HANDS)
    secrets, entropy = split_file(path, index(gates, "G", MAX_GATES + 1))
    return Hand(number, secrets, entropy)


def make_gate(number, hands, path):
    """FILE has 32 bytes of the gate's own, the secrets shared with each handheld, then entropy to the end."""
    number = index(number, "N", MAX_GATES)
    (own, *secrets), entropy = split_file(path, 1 + index(hands, "S", MAX_HANDS + 1))
    return Gate(number, own, secrets, entropy)


def main(words):
    if words == ["selftest"]:
        import reference_selftest

        return reference_selftest.main()
    makers = {"hand": make_hand, "gate": make_gate}
    try:
        if len(words) != 4 or words[0] not in makers:
            raise Unusable("usage: reference.py hand S G FILE | gate N S FILE | selftest")
        end = makers[words[0]](*words[1:])
    except Unusable as cause:
        print(f"reference.py: {cause}", file=sys.stderr)
        return 1
    try:
        play(end, sys.stdin.buffer, sys.stdout, sys.stderr)
    except (BrokenPipeError, KeyboardInterrupt):
        os.dup2(os.open(os.devnull, os.O_WRONLY), sys.stdout.fileno())
        return 1
    return 0


if __name__ == "__main__":
    sys.dont_write_bytecode = True
    sys.exit(main(sys.argv[1:]))
