"""Judges the frames of a run, one by one, against what `accepted` promises."""
import functools

import board_model as model
from board_model import OPERATION, PAGE, STATUS_WORD, WRITE_PROTECT

# how the frame of a message ends that ended so
ENDINGS = {"done": ["whole"], "nak": ["refused"], "timeout": ["whole", "refused", "front"]}


class Wrong(ValueError):
    """What is wrong with a run."""


def check(holds, what):
    if not holds:
        raise Wrong(what)


# ---- what one frame may be


class Judge:
    """Follows the frames of one run: what each target stores, and which rails reported good."""

    def __init__(self, board, pages, protects):
        self.board, self.pages, self.protects = board, pages, protects
        check(len(pages) == len(protects) == len(board.targets), "not one start for each target")
        for target, page, protect in zip(board.targets, pages, protects):
            check(page in target.start_pages, f"{target.name} starts with PAGE {page:02X}")
            is_listed = protect in target.start_protects
            check(is_listed, f"{target.name} starts with WRITE_PROTECT {protect:02X}")
        self.good, self.lost, self.alerting = set(), 0, set()
        self.readings = functools.cache(self.readings_of)

    def readings_of(self, text):
        """All messages to a target that its entries list and of which this may be the frame: the
        target, the form, the code, and how it ends as one."""
        found = []
        for index, target in enumerate(self.board.targets):
            for (form, code), (values, lengths) in target.allow.items():
                asked_for = model.pieces(form, target.address, code, values, lengths)
                ending = model.ends_as(model.frame_of(text), asked_for)
                if ending:
                    found.append((index, form, code, ending))
        return found

    def wrong_in(self, reading, sent, outcome):
        """What is wrong with a frame as one of its readings, or None."""
        index, form, code, ending = reading
        target, page, protect = self.board.targets[index], self.pages[index], self.protects[index]
        if ending not in ENDINGS[outcome]:
            return f"{outcome}, and the frame is {ending}"
        if form == "writebyte" and len(sent) == 3 and not target.takes_value(code, sent[2]):
            return f"{sent[2]:02X} is no value of {code:02X}"
        if code in model.PAGED and form == model.READ.get(code) and page == model.ALL_PAGES:
            return f"{code:02X} is read of all pages"
        went_out = len(sent) >= 3 or (form == "send" and outcome == "done")
        if went_out and model.counts_as_write(form, code) and not model.permits(protect, code):
            return f"{code:02X} is written where WRITE_PROTECT is {protect:02X}"
        return None

    def judge_own(self, text, outcome, ticks):
        """A frame of the program's; gives the forms that it may have."""
        frame = model.frame_of(text)
        if outcome == "timeout":
            check(ticks > model.CUT, f"cut in {ticks} ticks")
        sent, readings = frame.bytes_out(), self.readings(text)
        complaints = [self.wrong_in(one, sent, outcome) for one in readings]
        forms = [one[1] for one, wrong in zip(readings, complaints) if wrong is None]
        forms += ["alert"] * self.is_alert(frame, outcome)
        check(forms, complaints[0] if complaints else "no target takes this")
        self.judge_sent(sent)
        return forms

    def first_alerting(self):
        """Whose address an alert response returns: the lowest of those that alert."""
        alerting = [(self.board.targets[index].address, index) for index in self.alerting]
        return min(alerting, default=(None, None))

    def is_alert(self, frame, outcome):
        """Whether it is an alert response, or a beginning of one that was broken off."""
        address, _ = self.first_alerting()
        if outcome == "nak" and address is not None:
            return False
        ask = model.just(2 * model.ALERT_ADDRESS + 1)
        answer = model.Piece(False, lambda byte: byte >> 1 == address, is_last=True)
        ending = model.ends_as(frame, (piece for piece in (ask, answer)))
        return ending in ENDINGS[outcome]

    def judge_sent(self, sent):
        """The bytes that went out, up to a repeated START: a voltage, or a value of OPERATION."""
        for index, target in enumerate(self.board.targets):
            rails = self.board.selected(index, self.pages[index])
            if sent[:1] != [2 * target.address] or len(sent) < 3:
                continue
            if sent[1] in model.VOLTAGES and len(sent) == 4:
                for rail in map(self.board.rails.__getitem__, rails):
                    fits = model.is_within(sent[2] + 256 * sent[3], target.exponent, rail.limit_uv)
                    check(fits, f"{rail.name} gets {sent[3]:02X}{sent[2]:02X}, over its limit")
            if sent[1] == OPERATION and sent[2] in model.ENABLING:
                for rail in map(self.board.rails.__getitem__, rails):
                    lacking = [self.board.rails[need].name for need in set(rail.needs) - self.good]
                    check(not lacking, f"{rail.name} is turned on, and {lacking} aren't good")

    def judge_foreign(self, text, answer):
        """A frame of another controller's, which won."""
        frame = model.frame_of(text)
        self.lost += 1
        check(self.lost <= self.board.contentions, "more arbitrations are lost than may be")
        check(not frame.tail and frame.marks and model.AGAIN not in frame.marks, "no whole frame")
        (first, taken), *data = frame.marks
        check(first >> 1 in self.board.foreign and taken, f"{first:02X} isn't foreign")
        check(len(data) <= self.board.foreign_bytes, "too many bytes of another controller")
        wanted = [not first & 1 or number < len(data) for number in range(1, len(data) + 1)]
        check([one for _, one in data] == wanted, "wrong acknowledges of another controller")
        says = answer.get("contender", "").replace(":", "")
        shown = "".join(f"{byte:02X}" for byte, _ in frame.marks)
        check(says == shown, f"the contender's frame is {says}")

    # ---- what a step leaves behind

    def follow_alerts(self, answer):
        """The targets that begin to alert."""
        bits = int(answer.get("alerts", "0"), 16)
        begun = {index for index in range(16) if bits >> index & 1}
        may = {index for index, target in enumerate(self.board.targets) if target.alerts}
        check(begun <= may, "a target alerts that may not")
        self.alerting |= begun

    def follow(self, text, outcome, took):
        frame = model.frame_of(text)
        sent = frame.bytes_out()
        for index, target in enumerate(self.board.targets):
            if sent[:1] == [2 * target.address]:
                if len(sent) == 3 and model.AGAIN not in frame.marks:
                    self.follow_write(index, sent[1], sent[2], outcome == "done" or took)
                self.follow_read(index, frame)

    def follow_write(self, index, code, value, is_taken):
        if code == OPERATION and value not in model.ENABLING:
            self.good -= set(self.board.selected(index, self.pages[index]))
        target = self.board.targets[index]
        if not is_taken or not model.permits(self.protects[index], code):
            return
        stores = {PAGE: self.pages, WRITE_PROTECT: self.protects}
        if code in stores and target.takes_value(code, value):
            stores[code][index] = value

    def follow_read(self, index, frame):
        """Whole reads: of STATUS_WORD, and of what is stored, which has to be what is known."""
        target = self.board.targets[index]
        head = [(2 * target.address, True), model.AGAIN, (2 * target.address + 1, True)]
        if frame.tail or frame.marks[:1] + frame.marks[2:4] != head:
            return
        code, data = frame.marks[1][0], [byte for byte, _ in frame.marks[4:]]
        if code == STATUS_WORD and len(data) == 2:
            is_good = model.reports_good(data[0] + 256 * data[1])
            for number in self.board.selected(index, self.pages[index]):
                if self.board.rails[number].page == self.pages[index]:
                    (self.good.add if is_good else self.good.discard)(number)
        stores = {PAGE: self.pages, WRITE_PROTECT: self.protects}
        if code in stores and len(data) == 1:
            what = f"{data[0]:02X} is read, and {stores[code][index]:02X} is stored"
            check(data[0] == stores[code][index], what)
