"""The machine with its targets and rules once more, from docs/PROGRAM.md, docs/SIMULATOR.md and
docs/RULES.md, and an exhaustive search for a state whose instruction breaks a rule."""
import collections
import functools

from board_model import (
    ALERT_ADDRESS,
    ALL_PAGES,
    CUT,
    ENABLING,
    OPERATION,
    PAGE,
    PAGED,
    READ,
    STATUS_WORD,
    VOLTAGES,
    WORDS,
    WRITE_PROTECT,
    WRITTEN,
    code_of,
    counts_as_write,
    is_within,
    permits,
    reports_good,
)

# ---- the machine: states are tuples of place, registers, counters, PAGE and WRITE_PROTECT of each
# target, the targets that alert, lost arbitrations, and rails that reported good. A program is a
# list of tuples: an instruction's word and its operands, a register that is written as ("r", n), a
# target by its number, and a label by its place.

State = collections.namedtuple("State", "place regs counters pages protects alerting lost good")
# how many slots a form has, its STOP among them, how many bytes of it come before a repeated
# START, and how many bytes the controller sends (docs/BUNDLES.md, "Which number is which")
SHAPES = {
    "send": (19, 2, 2),
    "writebyte": (28, 3, 3),
    "writeword": (37, 4, 4),
    "readbyte": (38, 2, 3),
    "readword": (47, 2, 3),
}


@functools.cache
def ways(form, may_cut):
    """How a message of a form may end: whether it is done, how many bytes went out before a
    repeated START, whether its frame is whole, and whether a value was taken all the same."""
    slots, first, sent = SHAPES[form]
    found = {(True, first, True, False)}
    for took in (False, True):
        found |= {(False, min(byte + 1, first), False, took) for byte in range(sent)}
        for slot in range(slots if may_cut else 0):
            found.add((False, min((slot + 1) // 9, first), slot == slots - 1, took))
    return sorted(found)


def changed(values, index, value):
    return (*values[:index], value, *values[index + 1 :])


class Search:
    def __init__(self, board, lines):
        self.board, self.lines = board, lines
        self.may_cut = board.stretch >= CUT
        self.alerts = any(line[0] in ("alert", "ifalert") for line in lines)

    def starts(self):
        stored = [((), ())]
        for target in self.board.targets:
            stored = [
                ((*pages, page), (*protects, protect))
                for pages, protects in stored
                for page in target.start_pages
                for protect in target.start_protects
            ]
        for pages, protects in stored:
            yield State(0, (0,) * 8, (0,) * 4, pages, protects, frozenset(), 0, frozenset())

    # ---- the rules (docs/RULES.md)

    def form_and_code(self, line):
        code = code_of(line[2])
        if line[0] == "send":
            return "send", code
        return (WRITTEN if line[0] == "write" else READ)[code], code

    def value_of(self, state, line):
        return state.regs[line[3][1]] if isinstance(line[3], tuple) else line[3]

    def broken_rule(self, state, line):
        """The first rule that an instruction breaks where all is known."""
        if line[0] not in ("write", "read", "send"):
            return None
        target, (form, code) = self.board.targets[line[1]], self.form_and_code(line)
        entry, page = target.allow.get((form, code)), state.pages[line[1]]
        value = self.value_of(state, line) if line[0] == "write" else None
        if entry is None:
            return "K1"
        if value is not None and not entry[0][0] <= value <= entry[0][1]:
            return "K1"
        if form == "writebyte" and not target.takes_value(code, value):
            return "K1"
        if code in PAGED and form == READ.get(code) and page == ALL_PAGES:
            return "K2"
        protect = state.protects[line[1]]
        if counts_as_write(form, code) and not permits(protect, code):
            return "K3"
        rails = [self.board.rails[rail] for rail in self.board.selected(line[1], page)]
        if value is not None and code in VOLTAGES:
            if not all(is_within(value, target.exponent, rail.limit_uv) for rail in rails):
                return "K4"
        if form == "writebyte" and code == OPERATION and value in ENABLING:
            if not all(need in state.good for rail in rails for need in rail.needs):
                return "K5"
        return None

    # ---- steps (docs/SIMULATOR.md)

    def after_write(self, state, line, out, is_taken):
        """What a Write Byte leaves behind of which so many bytes went out."""
        form, code = self.form_and_code(line)
        if form != "writebyte" or out < 3:
            return state
        index, value = line[1], line[3]
        target = self.board.targets[index]
        if code == OPERATION and value not in ENABLING:
            off = self.board.selected(index, state.pages[index])
            return state._replace(good=state.good.difference(off))
        permitted = permits(state.protects[index], code)
        if not (is_taken and permitted and target.takes_value(code, value)):
            return state
        if code == PAGE:
            return state._replace(pages=changed(state.pages, index, value))
        if code == WRITE_PROTECT:
            return state._replace(protects=changed(state.protects, index, value))
        return state

    def values_read(self, state, line):
        """The values that a read may return."""
        form, code = self.form_and_code(line)
        if code in (PAGE, WRITE_PROTECT):
            return [(state.pages if code == PAGE else state.protects)[line[1]]]
        full = [0, 65535 if form in WORDS else 255], None
        low, high = self.board.targets[line[1]].allow.get((form, code), full)[0]
        return range(low, high + 1)

    def after_read(self, state, line, value, is_whole):
        """What a read leaves behind of what is known of the rails."""
        index = line[1]
        if not is_whole or code_of(line[2]) != STATUS_WORD:
            return state
        told = {
            number
            for number, rail in enumerate(self.board.rails)
            if rail.target == index and rail.page == state.pages[index]
        }
        if reports_good(value):
            return state._replace(good=state.good | told)
        return state._replace(good=state.good - told)

    def after_message(self, state, line):
        """The states behind a message, without what begins to alert."""
        address, to, next_place = self.board.targets[line[1]].address, line[-1], state.place + 1
        form, _ = self.form_and_code(line)
        for is_done, out, is_whole, took in ways(form, self.may_cut):
            place = next_place if is_done else to
            if line[0] != "read":
                yield self.after_write(state, line, out, is_done or took)._replace(place=place)
            elif not is_whole:
                yield state._replace(place=place)
            else:
                for value in self.values_read(state, line):
                    new = self.after_read(state, line, value, is_whole)
                    regs = changed(state.regs, line[3], value) if is_done else state.regs
                    yield new._replace(place=place, regs=regs)
        yield from self.after_loss(state, address, to)

    def after_loss(self, state, address, to):
        wins = any(other < address for other in self.board.foreign)
        if wins and state.lost < self.board.contentions:
            yield state._replace(place=to, lost=state.lost + 1)

    def after_alert(self, state, line):
        register, to = line[1], line[2]
        if state.alerting:
            address = min(self.board.targets[index].address for index in state.alerting)
            left = {i for i in state.alerting if self.board.targets[i].address != address}
            regs = changed(state.regs, register, 2 * address)
            yield state._replace(place=state.place + 1, regs=regs, alerting=frozenset(left))
        if not state.alerting or self.may_cut:
            yield state._replace(place=to)
        yield from self.after_loss(state, ALERT_ADDRESS, to)

    def after_silence(self, state, line):
        """The state behind an instruction that sends nothing."""
        kind, next_place = line[0], state.place + 1
        if kind == "ifalert":
            return state._replace(place=line[1] if state.alerting else next_place)
        if kind in ("set", "add"):
            before = state.regs[line[1]] if kind == "add" else 0
            regs = changed(state.regs, line[1], min(before + line[2], 65535))
            return state._replace(place=next_place, regs=regs)
        if kind == "if":
            passes = state.regs[line[1]] & line[2] == line[3]
            return state._replace(place=line[4] if passes else next_place)
        if kind == "above":
            return state._replace(place=line[3] if state.regs[line[1]] > line[2] else next_place)
        if kind == "count":
            counters = changed(state.counters, line[1], line[2])
            return state._replace(place=next_place, counters=counters)
        if kind == "again":
            left = state.counters[line[1]]
            counters = changed(state.counters, line[1], max(left - 1, 0))
            return state._replace(place=line[2] if left else next_place, counters=counters)
        return state._replace(place=line[1] if kind == "goto" else next_place)

    def with_alerts(self, states):
        """States, and those in which some targets began to alert in the step."""
        may = [i for i, target in enumerate(self.board.targets) if target.alerts]
        for state in states:
            yield state
            if self.alerts:
                for bits in range(1, 1 << len(may)):
                    begun = {index for at, index in enumerate(may) if bits >> at & 1}
                    yield state._replace(alerting=state.alerting | begun)

    def after(self, state):
        line = self.lines[state.place]
        if line[0] in ("end", "fail"):
            return
        if line[0] in ("write", "read", "send"):
            states = self.after_message(state, line)
        elif line[0] == "alert":
            states = self.after_alert(state, line)
        else:
            states = [self.after_silence(state, line)]
        yield from self.with_alerts(states)

    def verdict(self, most):
        """`harmful`, `harmless`, or `undecided` where there are more states; and how many seen."""
        seen = dict.fromkeys(self.starts())
        queue = collections.deque(seen)
        while queue:
            state = queue.popleft()
            rule = self.broken_rule(state, self.lines[state.place])
            if rule:
                return "harmful", len(seen)
            for new in self.after(state):
                if new not in seen:
                    seen[new] = None
                    queue.append(new)
            if len(seen) > most:
                return "undecided", len(seen)
        return "harmless", len(seen)
