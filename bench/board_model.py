"""What docs/BOARD.md, docs/PMBUS.md, docs/BUS.md and docs/BUNDLES.md say, read once more: commands,
boards, frames and bundles. bench/play and bench/refute judge by it; nothing of the product's code
is used here."""
import functools
import os
import pathlib
import re
import subprocess
import tomllib

TOP = pathlib.Path(__file__).resolve().parent.parent
PMSEQ = os.environ.get("PMSEQ", str(TOP / "crates/pmseq/out/pmseq"))

# ---- commands (docs/PMBUS.md, "Commands")

PAGE, OPERATION, WRITE_PROTECT, STATUS_WORD, QUERY = 0x00, 0x01, 0x10, 0x79, 0x1A
ALL_PAGES = 0xFF
ALERT_ADDRESS = 0x0C
VOLTAGES = {0x21: "VOUT_COMMAND", 0x25: "VOUT_MARGIN_HIGH", 0x26: "VOUT_MARGIN_LOW"}
ENABLING = {0x80, 0x94, 0x98, 0xA4, 0xA8}
# the code, the form that writes it, the form that reads it, and whether it depends on the page
COMMANDS = {
    "PAGE": (0x00, "writebyte", "readbyte", False),
    "OPERATION": (0x01, "writebyte", "readbyte", True),
    "CLEAR_FAULTS": (0x03, "send", None, True),
    "WRITE_PROTECT": (0x10, "writebyte", "readbyte", False),
    "CAPABILITY": (0x19, None, "readbyte", False),
    "QUERY": (0x1A, None, "blockcall", False),
    "VOUT_MODE": (0x20, None, "readbyte", True),
    "VOUT_COMMAND": (0x21, "writeword", "readword", True),
    "VOUT_MAX": (0x24, "writeword", "readword", True),
    "VOUT_MARGIN_HIGH": (0x25, "writeword", "readword", True),
    "VOUT_MARGIN_LOW": (0x26, "writeword", "readword", True),
    "VOUT_OV_FAULT_LIMIT": (0x40, "writeword", "readword", True),
    "VOUT_OV_WARN_LIMIT": (0x42, "writeword", "readword", True),
    "VOUT_UV_WARN_LIMIT": (0x43, "writeword", "readword", True),
    "VOUT_UV_FAULT_LIMIT": (0x44, "writeword", "readword", True),
    "STATUS_BYTE": (0x78, None, "readbyte", True),
    "STATUS_WORD": (0x79, None, "readword", True),
    "STATUS_VOUT": (0x7A, None, "readbyte", True),
    "STATUS_CML": (0x7E, None, "readbyte", True),
    "READ_VIN": (0x88, None, "readword", False),
    "READ_VOUT": (0x8B, None, "readword", True),
    "READ_IOUT": (0x8C, None, "readword", True),
    "READ_TEMPERATURE_1": (0x8D, None, "readword", True),
    "PMBUS_REVISION": (0x98, None, "readbyte", False),
    "MFR_ID": (0x99, None, "blockread", False),
}
WRITTEN = {code: form for code, form, _, _ in COMMANDS.values()}
READ = {code: form for code, _, form, _ in COMMANDS.values()}
PAGED = {code for code, _, _, paged in COMMANDS.values() if paged}
PERMITTED = {0x80: {0x10}, 0x40: {0x10, 0x01, 0x00}, 0x20: {0x10, 0x01, 0x00, 0x02, 0x21}}
WORDS = {"writeword", "readword", "call"}


def code_of(command):
    return COMMANDS[command][0] if command in COMMANDS else int(command, 16)


def is_manufacturers(code):
    return 0xD0 <= code <= 0xFD


def counts_as_write(form, code):
    """Whether WRITE_PROTECT speaks of it (docs/PMBUS.md, "Write protection")."""
    if is_manufacturers(code):
        return form not in ("readbyte", "readword", "blockread")
    return form == WRITTEN.get(code) and code != 0x03


def permits(protect, code):
    return protect == 0 or code in PERMITTED[protect]


def reports_good(word):
    return word & 0x0840 == 0


def is_within(mantissa, exponent, limit_uv):
    return mantissa * 1000000 <= limit_uv * 2 ** -exponent


def selects(stored, page):
    return stored in (page, ALL_PAGES)


# ---- boards (docs/BOARD.md)


class Target:
    def __init__(self, table):
        self.name, self.address, self.pages = table["name"], table["address"], table["pages"]
        self.exponent, self.stretch = table["exponent"], table["stretch"]
        self.alerts = table.get("alerts", False)
        self.start_pages, self.start_protects = table["start_pages"], table["start_protects"]
        # the values and the lengths of each form and code; code None where the form has none
        self.allow = {}
        for entry in table.get("allow", []):
            form = entry["form"]
            code = code_of(entry["command"]) if "command" in entry else None
            most = 65535 if form in WORDS else 255
            self.allow[form, code] = entry.get("values", [0, most]), entry.get("length", [1, 255])

    def takes_value(self, code, value):
        """Whether a byte that is written to a command is one of the command's."""
        if code == PAGE:
            return value < self.pages or value == ALL_PAGES
        if code == WRITE_PROTECT:
            return value in (0, 0x20, 0x40, 0x80)
        return code != OPERATION or value in (0, 0x40) or value in ENABLING


class Rail:
    def __init__(self, table, targets):
        self.name, self.page, self.limit_uv = table["name"], table["page"], table["limit_uv"]
        self.target = targets[table["target"]]
        self.needs = []


class Board:
    def __init__(self, text):
        tree = tomllib.loads(text)
        self.targets = [Target(table) for table in tree["target"]]
        index = {target.name: number for number, target in enumerate(self.targets)}
        self.rails = [Rail(table, index) for table in tree.get("rail", [])]
        names = {rail.name: number for number, rail in enumerate(self.rails)}
        for rail, table in zip(self.rails, tree.get("rail", [])):
            rail.needs = [names[need] for need in table.get("needs", [])]
        self.foreign = tree.get("foreign", [])
        self.foreign_bytes = tree.get("foreign_bytes", 0)
        self.foreign_stretch = tree.get("foreign_stretch", 0)
        self.contentions = tree.get("contentions", 0)
        self.stretch = max(target.stretch for target in self.targets)

    def selected(self, index, page):
        """The rails that a stored PAGE of a target selects, by their numbers."""
        return [
            number
            for number, rail in enumerate(self.rails)
            if rail.target == index and selects(page, rail.page)
        ]


# ---- frames (docs/BUS.md)

AGAIN = "Sr"
# the least hold that cuts a frame
CUT = 5000


class Frame:
    """Its marks, pairs of a byte and whether it was acknowledged, and AGAIN; its tail's bits."""

    def __init__(self, text):
        words = text.split(" ")
        if words[0] != "S" or words[-1] != "P":
            raise ValueError(text)
        self.marks, self.tail = [], ""
        for word in words[1:-1]:
            if self.tail:
                raise ValueError(text)
            if word == AGAIN:
                self.marks.append(AGAIN)
            elif re.fullmatch("[0-9A-F]{2}[AN]", word):
                self.marks.append((int(word[:2], 16), word[2] == "A"))
            elif re.fullmatch("/[01]{1,8}", word):
                self.tail = word[1:]
            else:
                raise ValueError(text)

    def bytes_out(self):
        """The bytes before the first repeated START, a whole one that is left over among them."""
        if AGAIN in self.marks:
            return [byte for byte, _ in self.marks[: self.marks.index(AGAIN)]]
        whole = [int(self.tail, 2)] if len(self.tail) == 8 else []
        return [byte for byte, _ in self.marks] + whole

    def samples(self):
        """How many samples it has where no slot is held, and nothing was cut."""
        return 4 + sum(3 if mark == AGAIN else 18 for mark in self.marks)


class Piece:
    """A byte of a whole frame: who sends it, which bytes it may be, and whether it is the last."""

    def __init__(self, is_sent, takes, is_last=False):
        self.is_sent, self.takes, self.is_last = is_sent, takes, is_last


def just(byte):
    return Piece(True, lambda other: other == byte)


def word(is_sent, values):
    low, high = values
    first = yield Piece(is_sent, lambda byte: byte + 256 * max(0, -((byte - low) // 256)) <= high)
    yield Piece(is_sent, lambda byte: low <= first + 256 * byte <= high, is_last=True)


def block(is_sent, lengths, values):
    """A count and its bytes; gives the count."""
    count = yield Piece(is_sent, lambda byte: lengths[0] <= byte <= lengths[1])
    for left in range(count, 0, -1):
        yield Piece(is_sent, lambda byte: values[0] <= byte <= values[1], left == 1)
    return count


def pieces(form, address, code, values, lengths):
    """The pieces of a whole frame by its protocol, within an entry's ranges: a generator to which
    each byte is sent that was seen. AGAIN stands for the repeated START."""
    if form in ("quickread", "receive"):
        yield just(2 * address + 1)
        if form == "receive":
            yield Piece(False, lambda byte: values[0] <= byte <= values[1], is_last=True)
        return
    yield just(2 * address)
    if form == "quickwrite":
        return
    yield just(code)
    written = 0
    if form == "writebyte":
        yield Piece(True, lambda byte: values[0] <= byte <= values[1])
    elif form in ("writeword", "call"):
        yield from word(True, values if form == "writeword" else [0, 65535])
    elif form in ("blockwrite", "blockcall"):
        own = (lengths, values) if form == "blockwrite" else ([1, 254], [0, 255])
        written = yield from block(True, *own)
    if form not in ("readbyte", "readword", "call", "blockread", "blockcall"):
        return
    yield AGAIN
    yield just(2 * address + 1)
    if form == "readbyte":
        least, most = [0, 255] if code in (PAGE, WRITE_PROTECT) else values
        yield Piece(False, lambda byte: least <= byte <= most, is_last=True)
    elif form in ("readword", "call"):
        yield from word(False, values)
    else:
        yield from block(False, [lengths[0], min(lengths[1], 255 - written)], values)


def follows(asked, item):
    """Whether a mark may stand where this piece is asked for, and whether it ends the frame."""
    if asked is None or AGAIN in (asked, item):
        return asked == item, False
    byte, acknowledged = item
    if not asked.takes(byte):
        return False, False
    if asked.is_sent:
        return True, not acknowledged
    return acknowledged != asked.is_last, False


def ends_as(frame, asked_for):
    """How a frame ends as one of these pieces: `whole`, `refused`, `front` or None."""
    asked = next(asked_for, None)
    for number, item in enumerate(frame.marks):
        fits, is_refused = follows(asked, item)
        if not fits:
            return None
        if is_refused:
            is_end = number == len(frame.marks) - 1 and not frame.tail
            return "refused" if is_end else None
        try:
            asked = asked_for.send(item[0] if item != AGAIN else None)
        except StopIteration:
            asked = None
    if frame.tail:
        rest = 8 - len(frame.tail)
        first = int(frame.tail, 2) << rest
        if asked in (None, AGAIN) or not any(map(asked.takes, range(first, first + (1 << rest)))):
            return None
        return "front"
    return "whole" if asked is None else "front"


# ---- bundles (docs/BUNDLES.md)


def sections(text):
    """The lines of each section of a bundle, by its header without the %."""
    found, lines = {}, None
    for line in text.split("\n")[1:]:
        if line.startswith("%"):
            lines = found[line[1:].rstrip("\r")] = []
        elif lines is not None:
            lines.append(line)
    for name, lines in found.items():
        while lines and not lines[-1].strip():
            lines.pop()
        found[name] = "".join(line + "\n" for line in lines)
    return found


def call(command, **parts):
    """Runs the built program on a bundle: its status, its output and its notes."""
    text = f"%{command}\n" + "".join(f"%{name}\n{part}" for name, part in parts.items())
    done = subprocess.run([PMSEQ], input=text.encode(), capture_output=True)
    return done.returncode, done.stdout.decode(), done.stderr.decode()


def warned_rule(notes):
    """The line, the rule and the answer's index of the rule that a run was warned of, or None."""
    found = re.search(
        r"^%program:(\d+): warning: (K[1-5]): .*\(answer (\d+) of the run\)", notes, re.M
    )
    return (int(found[1]), found[2], int(found[3])) if found else None


@functools.cache
def frame_of(text):
    return Frame(text)
