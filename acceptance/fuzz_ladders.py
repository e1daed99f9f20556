"""Random ladders: settings within their limits and at times outside, and one to three renditions."""

from dataclasses import dataclass, field

from fuzz_streams import Shape, stream

NAMES = ("v", "w", "high", "hd 50%", "ü", "Master", "_-~", "a+b", "x" * 64)
BAD_NAMES = ("master", "a.b", "a/b", "x" * 65, "\x7f", "a\nb")
CODECS = ("c", "avc1.4d401e", "avc1.64000d,mp4a.40.2", " ", "x" * 128)
BAD_CODECS = ("", 'a"b', "é", "x" * 129, "\t")
SIZES = ("640x360", "1x16384", "+16x0009")
BAD_SIZES = ("0x1", "16385x1", "640", "640X360", "x", "1x", "1x1x1", "-1x1", "18446744073709551616x1")
UNREAD_SIZES = BAD_SIZES[2:]
BAD_KEYS = ("", "00", "g" * 32, "0" * 31, "0" * 33)


@dataclass
class Entry:
    name: str
    codecs: str
    size: str
    keys: list
    data: bytes
    # Where its stream is: a file, a FIFO, a folder, or nothing is there.
    kind: str = "file"

    def words(self):
        """Those of `one`."""
        return [f"--name={self.name}", f"--codecs={self.codecs}", f"--size={self.size}", f"--keys={'+'.join(self.keys)}"]

    def text(self, path):
        """That of `pack`."""
        return f"{self.name}:{self.codecs}:{self.size}:{'+'.join(self.keys)}:{path}"


@dataclass
class Ladder:
    numbers: dict
    pool: dict
    salt: str | None = None
    event: bool = False
    entries: list = field(default_factory=list)
    # What its streams have in common.
    shape: Shape | None = None

    def words(self):
        """The options that say what is packed."""
        words = [f"--{name}={value}" for name, value in self.numbers.items()]
        return words + [f"--salt={self.salt}"] * (self.salt is not None) + ["--event"] * self.event

    def pool_words(self):
        """Those that say how."""
        return [f"--{name}={value}" for name, value in self.pool.items()]


def hex_digits(chance):
    return "".join(chance.choice("0123456789abcdefABCDEF") for _ in range(32))


def at_times(chance, often, name, value):
    return {name: value} if chance.random() < often else {}


def good_numbers(chance, step, gap):
    """What is in range; `most` is at times so small that a segment is too big."""
    return {
        **at_times(chance, 0.5, "window", chance.choice((1, 1, 2, 3, 4, 7, 10000))),
        **at_times(chance, 0.3, "frame", chance.choice((1, 3000, step, 300000, 900000))),
        **at_times(chance, gap != 900000, "gap", gap),
        **at_times(chance, 0.15, "most", chance.choice((1, 5, 10, 20, 40, 80, 1000000))),
        **at_times(chance, 0.5, "period", chance.choice((1, 2, 3, (1 << 64) - 1))),
    }


def bad_number(chance, target):
    """A setting that is refused."""
    name, *values = chance.choice(
        (
            ("target", 0, 3601, (1 << 64) - 1),
            ("segment", 0, target + 1, (1 << 64) - 1),
            ("window", 0, 10001),
            ("frame", 0, 900001),
            ("gap", 0, 1 << 32),
            ("most", 0, 1000001),
            ("program", 0, 65536, 65537),
            ("period", 0),
            ("period", 0),
        )
    )
    return {name: chance.choice(values)}


def step_of(chance, target, segment):
    """The ticks from key frame to key frame; mostly such that segments are no longer than the target."""
    if chance.random() < 0.05:
        return chance.randint(2000, 2 * 90000 * target)
    if segment < target and chance.random() < 0.5:
        return chance.randint(22500, 90000 * (target - segment))
    return 90000 * segment // chance.choice((1, 1, 2, 3))


def random_pool(chance):
    pool = {**at_times(chance, 0.9, "workers", chance.randint(1, 8)), **at_times(chance, 0.5, "queue", chance.choice((1, 2, 3, 16, 256)))}
    pool |= at_times(chance, 0.5, "batch", chance.choice((1, 1, 2, 3, 16, 256)))
    if chance.random() < 0.01:
        pool |= chance.choice(({"workers": 0}, {"workers": 65}, {"queue": 0}, {"queue": 257}, {"batch": 0}, {"batch": 257}))
    return pool


def random_entry(chance, name, shape):
    keys = [hex_digits(chance) for _ in range(chance.choice((1, 1, 2, 3)))]
    entry = Entry(name, chance.choice(CODECS), chance.choice(SIZES), keys, stream(chance, shape))
    entry.kind = chance.choices(("file", "fifo", "folder", "absent"), (50, 50, 1, 1))[0]
    if chance.random() < 0.04:
        what, values = chance.choice((("name", BAD_NAMES), ("codecs", BAD_CODECS), ("size", BAD_SIZES), ("keys", BAD_KEYS)))
        bad = chance.choice(values)
        setattr(entry, what, keys[1:] + [bad] if what == "keys" else bad)
    return entry


def random_ladder(chance):
    target = chance.choice((1, 1, 2, 2, 3, 4, 6, 8))
    segment = chance.randint(1, target) if chance.random() < 0.6 else None
    step = step_of(chance, target, segment or target)
    gap = chance.choice((900000, 900000, 900000, 90000, step, step - 1, 1, (1 << 32) - 1))
    numbers = {"target": target, **at_times(chance, segment is not None, "segment", segment), **good_numbers(chance, step, gap)}
    program = chance.choice((1, 1, 7, 65535))
    numbers |= at_times(chance, 0.2, "program", program if chance.random() < 0.9 else program ^ 2)
    if chance.random() < 0.03:
        numbers |= bad_number(chance, target)
    ladder = Ladder(numbers, random_pool(chance), event=chance.random() < 0.15)
    if chance.random() < 0.25:
        ladder.salt = hex_digits(chance) if chance.random() < 0.95 else "00"
    groups = min(40, (90000 * (segment or target) + step - 1) // step * chance.randint(1, 9) + 1)
    shape = ladder.shape = Shape(program, step, groups, gap)
    names = chance.sample(NAMES, chance.choice((1, 1, 2, 3)))
    if chance.random() < 0.01:
        names.append(names[0])
    ladder.entries = [random_entry(chance, name, shape) for name in names]
    return ladder
