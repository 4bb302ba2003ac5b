"""Small boards, and programs for them, by chance: bench/refute asks about these."""
import random

from board_model import ALL_PAGES


class Dice(random.Random):
    """Throws for a program; with more care, less of it goes wrong."""

    def __init__(self, seed):
        super().__init__(seed)
        self.care = self.choice([0.5, 0.9])


# ---- boards by chance


def some_of(rng, most, choices):
    return rng.sample(choices, rng.randint(1, min(most, len(choices))))


def entries(rng, pages):
    """The lines of a target's `allow`."""
    words = rng.choice([(0x3F, 0x40), (0x3F, 0x41), (0, 1), (0x40, 0x41), (0x7FE, 0x801), (0, 2)])
    volts = (rng.randint(0, 3), rng.randint(4, 6))
    rows = [
        ("writebyte", "PAGE", rng.choice([None, None, (0, pages - 1)])),
        ("readbyte", "PAGE", None),
        ("writebyte", "OPERATION", rng.choice([None, None, None, (0, 0x80), (0x40, 0xA8)])),
        ("writebyte", "WRITE_PROTECT", None),
        ("readbyte", "WRITE_PROTECT", None),
        ("writeword", "VOUT_COMMAND", rng.choice([None, (0, 5), (0, 6), (1, 6)])),
        ("writeword", "VOUT_MARGIN_HIGH", rng.choice([None, (0, 5)])),
        ("readword", "VOUT_COMMAND", volts),
        ("readword", "STATUS_WORD", words),
        ("send", "CLEAR_FAULTS", None),
    ]
    for form, command, values in rows:
        if rng.random() < 0.9 + rng.care / 10:
            range_of = f", values = [{values[0]}, {values[1]}]" if values else ""
            yield f'  {{form = "{form}", command = "{command}"{range_of}}},'


def target_lines(rng, number, address):
    pages = rng.choice([1, 1, 2])
    starts = some_of(rng, 2, [*range(pages), ALL_PAGES]) if rng.random() < 0.4 else [0]
    protects = some_of(rng, 2, [0, 0, 0x20, 0x40, 0x80]) if rng.random() < 0.25 else [0]
    return pages, [
        "[[target]]",
        f'name = "t{number}"',
        f"address = {address}",
        f"pages = {pages}",
        "exponent = -12",
        f"stretch = {rng.choice([0, 0, 0, 20, 6999])}",
        f"alerts = {rng.choice(['false', 'false', 'true'])}",
        f"start_pages = {starts}",
        f"start_protects = {protects}",
        "allow = [",
        *entries(rng, pages),
        "]",
    ]


def rail_lines(rng, number, place, count):
    """A rail; it needs others, mostly earlier ones."""
    others = [other for other in range(count) if other < number or rng.random() < 0.1]
    needs = [f'"v{other}"' for other in others if other != number and rng.random() < 0.6]
    limit = -(-rng.choice([3, 4, 5]) * 1000000 // 4096)
    return [
        "[[rail]]",
        f'name = "v{number}"',
        f'target = "t{place[0]}"',
        f"page = {place[1]}",
        f"limit_uv = {limit}",
        f"needs = [{', '.join(needs[:2])}]",
    ]


def board_text(rng):
    lines, places = [], []
    if rng.random() < 0.15:
        lines += [f"foreign = [{rng.choice([0x10, 0x30, 0x50])}]", "foreign_bytes = 1"]
        lines += [f"contentions = {rng.randint(1, 2)}"]
    for number, address in enumerate(rng.sample([0x21, 0x40, 0x41], rng.choice([1, 2, 2, 3]))):
        pages, text = target_lines(rng, number, address)
        lines += text
        places += [(number, page) for page in range(pages) if rng.random() < 0.9]
    for number, place in enumerate(places):
        lines += rail_lines(rng, number, place, len(places))
    return "\n".join(lines) + "\n"


# ---- programs by chance: instructions as tuples, those that jump with their label last. A label
# is a place, `+n` or `-n` for places further on or back, `bad` for the last `fail`, or `any`

JUMPING = {"write", "read", "send", "alert", "ifalert", "if", "above", "again", "goto"}


def label(rng):
    return "bad" if rng.random() < rng.care else rng.choice(["+1", "+1", "any"])


def a_value(rng, target, command):
    if command == "PAGE":
        return rng.choice([*range(target.pages), *range(target.pages), ALL_PAGES])
    if command == "OPERATION":
        return rng.choice([0x80, 0x80, 0x80, 0x80, 0, 0x40, 0xA8, 0x94])
    if command == "WRITE_PROTECT":
        return rng.choice([0, 0, 0x20, 0x40, 0x80])
    return rng.choice([0, 1, 2, 3, 3, 4, 5, 6])


def a_write(rng, board, command):
    number = rng.randrange(len(board.targets))
    value = a_value(rng, board.targets[number], command)
    return [("write", number, command, value, label(rng))]


def a_read(rng, board, command):
    return [("read", rng.randrange(len(board.targets)), command, rng.randrange(2), label(rng))]


# Each of these asks a target whether its power is good.


def asked(rng, number):
    register = rng.randrange(2)
    mask = 0x0840 if rng.random() < rng.care else rng.choice([0x0840, 0x0040, 0x0800])
    head = ("read", number, "STATUS_WORD", register, label(rng))
    return [head, ("if", register, mask, 0, "+2"), ("goto", "bad")]


def asked_bit_by_bit(rng, number):
    head = ("read", number, "STATUS_WORD", 0, label(rng))
    bits = rng.sample([0x0040, 0x0800], 2)
    return [head, ("if", 0, bits[0], bits[0], "bad"), ("if", 0, bits[1], bits[1], "bad")]


def polled(rng, number):
    counter = rng.randrange(2)
    return [
        ("count", counter, rng.randint(0, 2)),
        ("read", number, "STATUS_WORD", 0, "+2"),
        ("if", 0, 0x0840, 0, rng.choice(["+3", "+3", "+4"])),
        ("again", counter, "-2"),
        ("goto", rng.choice(["bad", "bad", "+1"])),
    ]


def told_by_flag(rng, number):
    """Two ways meet, and a register says which one it was."""
    return [
        ("read", number, "STATUS_WORD", 0, "+2"),
        ("if", 0, 0x0840, 0, rng.choice(["+3", "+3", "+2"])),
        ("set", 1, 0),
        ("goto", "+2"),
        ("set", 1, 1),
        ("wait", 1),
        ("if", 1, 0xFFFF, rng.choice([0, 0, 1]), "bad"),
    ]


def asked_in_some_way(rng, number):
    ways = [asked, asked, polled, told_by_flag, asked_bit_by_bit]
    lines = rng.choice(ways)(rng, number)
    if rng.random() < 0.15:
        # and goes on where a second read isn't done
        lines += [("read", number, "STATUS_WORD", 0, "+2"), ("goto", "bad")]
    return lines


def at_page(rng, board, rail):
    """Writes the page of a rail, mostly."""
    target = board.targets[rail.target]
    if rng.random() < (0.85 if target.pages > 1 else 0.3):
        return [("write", rail.target, "PAGE", rail.page, label(rng))]
    return []


def brought_up(rng, board):
    """Turns a rail on, mostly behind what it needs."""
    lines = []
    rail = rng.choice([rail for rail in board.rails if rail.needs] or board.rails or [None])
    if rail is None:
        return lines
    for need in rail.needs:
        if rng.random() < 0.5 + rng.care / 2:
            lines += at_page(rng, board, board.rails[need])
            lines += asked_in_some_way(rng, board.rails[need].target)
    lines += at_page(rng, board, rail)
    return [*lines, ("write", rail.target, "OPERATION", rng.choice([0x80, 0xA8]), label(rng))]


# Each of these looks at something, and goes on in one case.


def alerted(rng, board):
    address = rng.choice(board.targets).address
    who = [
        ("alert", 0, rng.choice(["bad", "+1"])),
        ("alert", 1, rng.choice(["bad", "+1"])),
        ("if", rng.randrange(2), 0xFFFF, 2 * address, "+2"),
        ("goto", "bad"),
    ]
    return [("ifalert", "+2"), ("goto", "bad"), *rng.choice([who, []])]


def shifted(rng, board):
    number, register = rng.randrange(len(board.targets)), rng.randrange(2)
    return [
        ("read", number, "VOUT_COMMAND", register, label(rng)),
        ("add", register, rng.randint(1, 3)),
        ("if", register, 0xFFFF, rng.randint(2, 7), "+2"),
        ("goto", "bad"),
    ]


# Each of these writes a voltage that a register has.


def ramped(rng, board):
    number, register, counter = rng.randrange(len(board.targets)), rng.randrange(2), 2
    return [
        ("set", register, rng.randint(0, 3)),
        ("count", counter, rng.randint(0, 3)),
        ("write", number, "VOUT_COMMAND", ("r", register), label(rng)),
        ("add", register, 1),
        ("again", counter, "-2"),
    ]


def voltage_read(rng, board):
    number, register = rng.randrange(len(board.targets)), rng.randrange(2)
    first = ("read", number, "VOUT_COMMAND", register, label(rng))
    bound = [("above", register, rng.randint(2, 5), "bad")] * rng.randint(0, 1)
    more = [("add", register, 1)] * rng.choice([0, 0, 1])
    return [first, *bound, *more, ("write", number, "VOUT_COMMAND", ("r", register), label(rng))]


def looped(rng, board):
    """Something that is done a few times."""
    body = a_piece(rng, board)[:4]
    counter = rng.randrange(2)
    return [("count", counter, rng.randint(0, 3)), *body, ("again", counter, f"-{len(body)}")]


def small(rng, board):
    register = rng.randrange(2)
    return [
        rng.choice(
            [
                ("if", register, rng.choice([0x0840, 0xFFFF, 1]), rng.choice([0, 0, 1]), "any"),
                ("above", register, rng.randint(0, 5), rng.choice(["any", "bad"])),
                ("set", register, rng.randint(0, 6)),
                ("add", register, rng.randint(1, 2)),
                ("wait", rng.randint(1, 30)),
                ("goto", "any"),
                ("alert", register, label(rng)),
                ("ifalert", label(rng)),
                ("again", rng.randrange(2), "any"),
                ("send", rng.randrange(len(board.targets)), "CLEAR_FAULTS", label(rng)),
            ]
        )
    ]


def a_piece(rng, board):
    """A few instructions; with care, fewer of those that stand alone."""
    alone = [
        (10, lambda: a_write(rng, board, "PAGE")),
        (8, lambda: a_write(rng, board, "OPERATION")),
        (8, lambda: a_write(rng, board, "VOUT_COMMAND")),
        (2, lambda: a_write(rng, board, "VOUT_MARGIN_HIGH")),
        (4, lambda: a_write(rng, board, "WRITE_PROTECT")),
        (4, lambda: a_read(rng, board, rng.choice(["PAGE", "WRITE_PROTECT", "VOUT_COMMAND"]))),
        (4, lambda: a_read(rng, board, "STATUS_WORD")),
        (12, lambda: small(rng, board)),
    ]
    together = [
        (4, lambda: asked_in_some_way(rng, rng.randrange(len(board.targets)))),
        (14, lambda: brought_up(rng, board)),
        (2, lambda: alerted(rng, board)),
        (2, lambda: shifted(rng, board)),
        (3, lambda: voltage_read(rng, board)),
        (2, lambda: ramped(rng, board)),
        (2, lambda: looped(rng, board)),
    ]
    kinds = alone if rng.random() < 1 - rng.care else together
    return rng.choices([make for _, make in kinds], [weight for weight, _ in kinds])[0]()


def resolved(rng, lines, place):
    """An instruction with a place for its label."""
    kind, *rest = lines[place]
    if kind not in JUMPING:
        return lines[place]
    last, to = len(lines) - 1, rest[-1]
    if to == "bad":
        to = last
    elif to == "any":
        to = rng.randint(place + 1, last) if rng.random() < 0.85 else rng.randint(0, last)
    else:
        to = max(0, min(place + int(to), last))
    return (kind, *rest[:-1], to)


def program_lines(rng, board):
    lines, most = [], rng.randint(3, 12)
    while len(lines) < most:
        lines += a_piece(rng, board)
    lines += [("end",), ("fail",)]
    return [resolved(rng, lines, place) for place in range(len(lines))]


def instruction_text(line):
    kind, *rest = line
    if kind not in JUMPING:
        registers = {"set": "r", "add": "r", "count": "c"}
        words = [f"{registers[kind]}{rest[0]}", rest[1]] if kind in registers else rest
        return " ".join(map(str, [kind, *words]))
    *words, to = rest
    if kind in ("write", "read", "send"):
        words[0] = f"t{words[0]}"
    if kind == "write" and isinstance(words[2], tuple):
        words[2] = f"r{words[2][1]}"
    at = {"read": 2, "alert": 0, "if": 0, "above": 0, "again": 0}.get(kind)
    if at is not None:
        words[at] = f"{'c' if kind == 'again' else 'r'}{words[at]}"
    words += ["else"] * (kind in ("write", "read", "send", "alert"))
    return " ".join(map(str, [kind, *words, f"p{to}"]))


def program_text(lines):
    """The text, and the line of each place in it."""
    targets = {line[-1] for line in lines if line[0] in JUMPING}
    text, at = [], []
    for place, line in enumerate(lines):
        text += [f"p{place}:"] * (place in targets)
        text.append(instruction_text(line))
        at.append(len(text))
    return "\n".join(text) + "\n", at
