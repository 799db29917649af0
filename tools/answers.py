"""What every answer of the program must look like, whatever it was asked. A module for the scripts beside it.

It knows the forms of docs/FORMATS.md and no more: it can't say which answer is right, only that a status and a text go together.
"""

import re

REPORT = {0: b"consistent", 1: b"explained", 2: b"background", 3: b"limit"}
MODEL_REASONS = (b"NotUtf8 BadToken OpenBracket OpenComment BadIndent Misplaced BadGroup BadFeature TooMany TooDeep Twice BadFormula"
                 b" Unsupported NoFeatures Unknown").split()
CONFIG_REASONS = b"NotUtf8 BadToken OpenBracket OpenComment TooMany Unsupported BadFormula TooDeep Unknown BadTier".split()
CERTIFICATE_REASONS = b"NoCertificate BadLine NotProduct NotConsequence NoEnd".split()
PARTS = rb"(?:all|background|kept|conflict|listing)"
NUMBER = rb"(?:0|[1-9][0-9]*)"
LIST = rb"(?:none|[1-9][0-9]*(?: [1-9][0-9]*)*)"


def refused(text, what, reasons):
    if text == what + b" refused too long\n":
        return True
    found = re.fullmatch(what + rb" refused line ([1-9][0-9]*) (\w+)\n", text)
    return found is not None and found.group(2) in reasons


class Lines:
    """The lines of a report, taken one after the other."""

    def __init__(self, text):
        self.lines, self.at = text.split(b"\n"), 0

    def now(self):
        return self.lines[self.at] if self.at < len(self.lines) else b""

    def take(self, pattern):
        found = re.fullmatch(pattern, self.now())
        self.at += found is not None
        return found

    def members(self, count, most):
        """So many indented lines with a position and a text, ascending."""
        before = 0
        for _ in range(count):
            found = self.take(rb"  ([1-9][0-9]*) (.+)")
            if not found or not before < int(found.group(1)) <= most:
                return "a line that isn't a member's: %r" % self.now()[:80]
            before = int(found.group(1))
        return None

    def finding(self, before, most, some):
        """Both blocks that tell what is given up and what can't be met together, as far as they are there."""
        for word in (b"diagnosis", b"conflict"):
            found = self.take(before + word + rb" (" + NUMBER + rb")")
            if not found:
                return "no %s" % word.decode() if some else None
            wrong = self.members(int(found.group(1)), most)
            if wrong:
                return wrong
        return None


def listing(lines, most):
    found = lines.take(rb"listing (" + NUMBER + rb") size (" + NUMBER + rb")")
    if not found:
        return None
    seen, size = [], int(found.group(2))
    for _ in range(int(found.group(1))):
        row = lines.take(rb"  (" + LIST + rb")")
        if not row:
            return "a line that isn't a listed diagnosis: %r" % lines.now()[:80]
        numbers = [] if row.group(1) == b"none" else [int(it) for it in row.group(1).split()]
        if numbers != sorted(set(numbers)) or len(numbers) > size or any(it > most for it in numbers):
            return "a listed diagnosis out of form: %r" % numbers[:20]
        if seen and len(numbers) < len(seen[-1]):
            return "a listed diagnosis with fewer members behind one with more"
        seen.append(numbers)
    return "a diagnosis is listed twice" if len({tuple(it) for it in seen}) != len(seen) else None


def must_lines(lines, musts):
    """Of a report without a product for the musts: what to do about them."""
    if lines.take(rb"must background"):
        return None
    wrong = lines.finding(b"must ", musts, False)
    if wrong:
        return wrong
    lines.take(rb"must limit in " + PARTS + rb" at " + LIST)
    return None


def report(status, text, words):
    """What is wrong with a report, or None."""
    lines = Lines(text)
    if not lines.take(rb"diag 1"):
        return "no report"
    if not lines.take(rb"model [1-9][0-9]* features " + NUMBER + rb" constraints"):
        return "no line of the model"
    found = lines.take(rb"requirements (" + NUMBER + rb")")
    if not found:
        return "no line of the requirements"
    most = int(found.group(1))
    found = lines.take(rb"musts ([1-9][0-9]*)")
    musts = int(found.group(1)) if found else 0
    if not lines.take(b"result " + REPORT[status]):
        return "status %d and %r" % (status, lines.now()[:40])
    if status == 2 and musts:
        wrong = must_lines(lines, musts)
        if wrong:
            return wrong
    wrong = lines.finding(b"", most, status == 1) if status in (1, 3) else None
    wrong = wrong or (listing(lines, most) if status in (1, 3) else None)
    if wrong:
        return wrong
    if status == 1 and (b"--list" in words) != any(it.startswith(b"listing ") for it in lines.lines[:lines.at]):
        return "a listing where none is asked for, or none where it is"
    if status == 3 and not lines.take(rb"limit in " + PARTS + rb" at " + LIST):
        return "no line of the limit"
    if not lines.take(rb"checks [1-9][0-9]* predicted " + NUMBER + rb" wasted " + NUMBER) or not lines.take(rb"end"):
        return "no end of the report: %r" % lines.now()[:80]
    rest = lines.lines[lines.at:]
    if b"--certify" in words and status != 3:
        if rest[:1] != [b"certificate 1"] or rest[1:2] != [REPORT[status]] or rest[-2:] != [b"end", b""]:
            return "no certificate of this answer behind the report"
        return None
    return None if rest == [b""] else "something behind the report"


def wrong(status, text, more, words):
    """What is wrong with an answer to these words, or None. `more` is what was written to standard error."""
    if more:
        return "it wrote to standard error: %r" % more[:200]
    command = words[0] if words else b""
    if status == 64:
        return None if text == b"words refused\n" else "status 64 and another text"
    if status == 65:
        return None if refused(text, b"model", MODEL_REASONS) else "status 65 and another text"
    if status == 66:
        return None if refused(text, b"configuration", CONFIG_REASONS) else "status 66 and another text"
    if status == 67:
        found = re.fullmatch(rb"problem refused variables ([0-9]+) limit 1000000\n", text)
        return None if found and int(found.group(1)) > 1000000 else "status 67 and another text"
    if status == 70:
        return None if text == b"" else "status 70 and something was written"
    if status == 74:
        return None if re.fullmatch(rb"read failed (model|configuration|certificate)\n", text) else "status 74 and another text"
    if status == 4 and command == b"verify":
        found = re.fullmatch(rb"rejected line [1-9][0-9]* (\w+)\n", text)
        return None if text == b"rejected too long\n" or found and found.group(1) in CERTIFICATE_REASONS else "status 4 and another text"
    if status == 0 and command == b"verify":
        return None if re.fullmatch(rb"verified (consistent|background|explained)\n", text) else "verified in another form"
    if status == 0 and command == b"generate":
        return None if text.endswith(b"\n") else "a generated text without its end"
    if status in REPORT and command == b"diagnose":
        return report(status, text, words)
    return "an unknown status, or one that the command doesn't have: %d" % status
