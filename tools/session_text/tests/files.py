"""Session files for the tests, written from document 01's table of fields and not by the code under test."""
import random

# Document 01's example, byte by byte, and its text.
EXAMPLE = bytes.fromhex(
    "01 08 0B 05 00 00 01 01 00 00 99 01 90 01 00 05"
    "01 2A C8 00 00 FE 00 00 02 A0 00 00 02 90 00 00 0A 00 00 00"
)
EXAMPLE_TEXT = """\
profile type 8 short 5 random 1 tc 153..400 minimum 1
write SetMaxLevel 200
arc 254
query ActualLevel
query Status
power-cycle
"""


def file_of(steps, types=b"\x08", profile=EXAMPLE[3:14]):
    return bytes([len(types)]) + types + b"\x0b" + profile + len(steps).to_bytes(2, "big") + b"".join(steps)


def random_profile(chance):
    coolest = chance.choice([0, 153, chance.randrange(65535), 65534])
    warmest = chance.choice([coolest, chance.randint(coolest, 65534), 65534])
    return bytes([
        chance.choice([255, 0, 63, chance.randrange(64)]),
        *chance.choice([0, 1, 0xFFFFFF, chance.randrange(1 << 24)]).to_bytes(3, "big"),
        chance.randrange(32),
        chance.randrange(7),
        *coolest.to_bytes(2, "big"),
        *warmest.to_bytes(2, "big"),
        chance.choice([1, 254, chance.randint(1, 254)]),
    ])


def random_step(chance):
    """Mostly of a known kind, mostly with the bytes 0 that kinds ignore."""
    step = [chance.choice([*range(13), chance.randrange(256)])]
    step += [chance.choice([0, 0, 1, 255, chance.randrange(256)]) for _ in range(3)]
    return bytes(step)


def random_files(seed, count):
    """Well-formed files, the same for the same seed."""
    chance = random.Random(seed)
    for _ in range(count):
        types = bytes(chance.choice([6, 7, 8, chance.randrange(256)]) for _ in range(chance.randrange(14)))
        steps = [random_step(chance) for _ in range(chance.choice([0, 1, 5, 40]))]
        yield file_of(steps, types, random_profile(chance))


def steps_of_every_byte():
    """For each kind and some that are none, each byte a, alone and with other bytes beside it."""
    others = [(0, 0), (1, 0), (0, 1), (255, 255), (0x12, 0x34)]
    for kind in [*range(14), 99, 255]:
        for a in range(256):
            yield from (bytes([kind, a, b, c]) for b, c in others)
        for b in range(256):
            yield from (bytes([kind, a, b, c]) for a, c in [(0, 0), (42, 0), (160, 0), (0, b)])
