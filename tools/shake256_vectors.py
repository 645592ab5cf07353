#!/usr/bin/env python3
"""Writes crates/keccak_vectors/stdout: the lines of that program, as Python's hashlib has them."""

from hashlib import shake_256
from pathlib import Path

MESSAGE = bytes(i % 251 for i in range(600))
LENGTHS_CUT = [0, 1, 50, 135, 136, 137, 200, 271, 272, 273, 300]


def shake(message, length):
    return shake_256(message).digest(length)


def lines():
    for n in range(421):
        yield "whole", n, 32, shake(MESSAGE[:n], 32)
    for n in range(1, 601):
        yield "output", 600, n, shake(shake(MESSAGE, n), 16)
    for n in LENGTHS_CUT:
        for i in range(n + 1):
            answers = shake(MESSAGE[:n], 32) * (n + 1 - i)
            yield "parts", n, i, shake(answers, 16)
    for n in range(1, 301):
        yield "chunks", 600, n, shake(MESSAGE, 16)


stdout = Path(__file__).parent.parent / "crates" / "keccak_vectors" / "stdout"
stdout.write_text("".join(f"{kind} {a} {b} {answer.hex()}\n" for kind, a, b, answer in lines()))
