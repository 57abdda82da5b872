#!/usr/bin/env python3
"""The box, written a second time from docs/RULES.md alone, to work out expected results independently.

    tests/reference.py < JOB        prints what the box prints of a job
    tests/reference.py --dimacs < TEXT    prints what the program dimacs prints of a text

It shares nothing with the crates. It favours plainness over speed.
"""
import sys

BLANKS = b" \t\r\n"


class Refused(Exception):
    def __init__(self, number, place, step=None):
        super().__init__(number, place)
        self.number = number
        self.place = place


# ---- words ------------------------------------------------------------------------------------------------------

def words(text):
    """All words of a text with their places: [(place, bytes)]."""
    found = []
    at = 0
    line_start = True
    n = len(text)
    while at < n:
        if line_start and text[at:at + 1] == b"c":
            end = text.find(b"\n", at)
            at = n if end < 0 else end
            line_start = False
            continue
        if text[at] in BLANKS:
            line_start = text[at:at + 1] == b"\n"
            at += 1
            continue
        start = at
        while at < n and text[at] not in BLANKS:
            at += 1
        found.append((start, text[start:at]))
        line_start = False
    return found


def unsigned(word):
    return word == b"0" or (word.isdigit() and word[:1] != b"0")


def number(word):
    return unsigned(word) or (word[:1] == b"-" and unsigned(word[1:]) and word[1:] != b"0")


# ---- literals and clauses -----------------------------------------------------------------------------------------

def arranged(literals, highest, places=None):
    """The clause of these literals; else Refused with 4 or 5 at the lowest place at fault."""
    places = list(range(len(literals))) if places is None else places
    for place, l in zip(places, literals):
        if l == 0 or abs(l) > highest:
            raise Refused(4, place)
    seen = set()
    for place, l in zip(places, literals):
        if abs(l) in seen:
            raise Refused(5, place)
        seen.add(abs(l))
    return tuple(sorted(literals, key=abs))


# ---- engines ------------------------------------------------------------------------------------------------------

class Scanning:
    """The lowest falsified number, else the lowest forcing one, among the texts that are on."""

    def __init__(self):
        self.texts, self.on = [], []

    def ask(self, values):
        forcing = None
        for n, (text, on) in enumerate(zip(self.texts, self.on), 1):
            if not on:
                continue
            open_literals = [l for l in text if -l not in values]
            if not open_literals:
                return ("conflict", n)
            if forcing is None and len(open_literals) == 1 and open_literals[0] not in values:
                forcing = ("forced", open_literals[0], n)
        return forcing or ("nothing",)


class CoreFirst:
    """Two scanning engines: the preferred texts are asked first, the rest only when these say nothing."""

    def __init__(self):
        self.preferred, self.rest = Scanning(), Scanning()
        self.answers = 0

    def put(self, text):
        for side in (self.preferred, self.rest):
            side.texts.append(text)
            side.on.append(False)

    def turn_on(self, n):
        self.rest.on[n - 1] = True

    def turn_off(self, n):
        self.preferred.on[n - 1] = self.rest.on[n - 1] = False

    def prefer(self, n):
        if self.rest.on[n - 1]:
            self.rest.on[n - 1] = False
            self.preferred.on[n - 1] = True

    def ask(self, values):
        self.answers += 1
        answer = self.preferred.ask(values)
        return self.rest.ask(values) if answer == ("nothing",) else answer


class Plain:
    """One scanning engine."""

    def __init__(self):
        self.one = Scanning()
        self.answers = 0

    def put(self, text):
        self.one.texts.append(text)
        self.one.on.append(False)

    def turn_on(self, n):
        self.one.on[n - 1] = True

    def turn_off(self, n):
        self.one.on[n - 1] = False

    def prefer(self, n):
        pass

    def ask(self, values):
        self.answers += 1
        return self.one.ask(values)


# ---- the job ------------------------------------------------------------------------------------------------------

class Job:
    def __init__(self, v, n, q):
        if v > 512 or not 1 <= n <= 4096 or q > 32768:
            raise Refused(7, 0)
        self.v, self.n, self.q = v, n, q
        self.inputs = 0
        self.clauses = []          # literals, by number from 1
        self.steps = []            # ("lemma", number) or ("strike", number)
        self.verdict = None

    def struck(self, steps):
        return {n for kind, n in steps if kind == "strike"}

    def is_ended(self):
        return bool(self.steps) and self.steps[-1][0] == "lemma" and self.clauses[self.steps[-1][1] - 1] == ()

    def enter(self, c):
        if len(self.clauses) >= self.n or sum(map(len, self.clauses)) + len(c) > self.q:
            raise Refused(10, 0)
        self.clauses.append(c)

    def clause(self, literals):
        c = arranged(literals, self.v)
        if self.steps:
            raise Refused(8, 0)
        self.enter(c)
        self.inputs += 1
        self.verdict = None

    def lemma(self, literals):
        c = arranged(literals, self.v)
        if self.is_ended():
            raise Refused(9, 0)
        self.enter(c)
        self.steps.append(("lemma", len(self.clauses)))
        self.verdict = None

    def strike(self, literals):
        c = arranged(literals, self.v)
        if self.is_ended():
            raise Refused(9, 0)
        gone = self.struck(self.steps)
        for n in range(len(self.clauses), 0, -1):
            if self.clauses[n - 1] == c and n not in gone:
                self.steps.append(("strike", n))
                self.verdict = None
                return
        raise Refused(11, 0)

    def withdraw(self):
        if not self.steps:
            raise Refused(12, 0)
        if self.steps.pop()[0] == "lemma":
            self.clauses.pop()
        self.verdict = None

    def check(self, engine, arc_places):
        """(kept numbers, rows by lemma, answers); engine is made anew by the caller."""
        if not self.is_ended():
            raise Refused(13, 0)
        lemmas = len(self.clauses) - self.inputs
        if arc_places < lemmas * (self.v + 1):
            raise Refused(6, 0)
        self.verdict = None
        for c in self.clauses:
            engine.put(c)
        gone = self.struck(self.steps)
        for n in range(1, len(self.clauses) + 1):
            if n not in gone:
                engine.turn_on(n)
        kept, rows = {len(self.clauses)}, {}
        for step in range(len(self.steps), 0, -1):
            kind, n = self.steps[step - 1]
            if kind == "strike":
                engine.turn_on(n)
                continue
            engine.turn_off(n)
            if n not in kept:
                continue
            row = self.try_lemma(engine, self.clauses[n - 1])
            if row is None:
                raise Refused(14, step)
            rows[n] = row
            kept.update(row)
            for k in row:
                engine.prefer(k)
        self.verdict = (kept, rows, engine.answers)
        return self.verdict

    def try_lemma(self, engine, lemma):
        values = {-l for l in lemma}
        forced = []
        while True:
            answer = engine.ask(values)
            if answer[0] == "nothing":
                return None
            if answer[0] == "forced":
                values.add(answer[1])
                forced.append(answer[1:])
                continue
            row = [answer[1]]
            standing = set(self.clauses[answer[1] - 1])
            for l, n in reversed(forced):
                if -l in standing:
                    row.insert(0, n)
                    standing.update(self.clauses[n - 1])
            return row


# ---- texts --------------------------------------------------------------------------------------------------------

def heading(text):
    """V, C, and the words behind them."""
    found = words(text)
    end = len(text)
    for i, wanted in enumerate((b"p", b"cnf", None, None)):
        if i >= len(found):
            raise Refused(2, end)
        place, word = found[i]
        if (word != wanted) if wanted else not unsigned(word):
            raise Refused(1, place)
    return int(found[2][1]), int(found[3][1]), found[4:]


def read_clause(found, at, end, highest):
    """From the first word of a clause: its literals in the text's order, and where it goes on. 4 and 5 at their words."""
    literals, places = [], []
    while True:
        if at >= len(found):
            raise Refused(3, end)
        place, word = found[at]
        at += 1
        if not number(word):
            raise Refused(1, place)
        if word == b"0":
            arranged(literals, highest, places)
            return literals, at
        literals.append(int(word))
        places.append(place)


def read_clauses(text, highest, count, found, enter):
    at = 0
    for _ in range(count):
        if at >= len(found):
            raise Refused(2, len(text))
        first = found[at][0]
        literals, at = read_clause(found, at, len(text), highest)
        enter(literals, first)
    if at < len(found):
        raise Refused(2, found[at][0])


def load_proof(job, text):
    found = words(text)
    at = 0
    while at < len(found):
        first, word = found[at]
        call = job.lemma
        if word == b"d":
            call = job.strike
            at += 1
        literals, at = read_clause(found, at, len(text), job.v)
        placed(call, literals, first)


def placed(call, literals, first):
    """A call's refusals 8 to 11 stand at the first word of the clause or step."""
    try:
        call(literals)
    except Refused as r:
        raise Refused(r.number, first)


def count_line(data, at):
    end = data.find(b"\n", at)
    word = data[at:end] if end >= 0 else b""
    if end < 0 or not unsigned(word) or int(word) > 32768 or len(data) - (end + 1) < int(word):
        raise Refused(2, at)
    return end + 1, end + 1 + int(word)


# ---- prints -------------------------------------------------------------------------------------------------------

def line(*numbers):
    return " ".join(map(str, numbers)) + "\n"


def formula(v, clauses):
    return f"p cnf {v} {len(clauses)}\n" + "".join(line(*c, 0) for c in clauses)


def printed(job):
    kept, rows, _ = job.verdict
    core = [job.clauses[n - 1] for n in sorted(kept) if n <= job.inputs]
    proof = [job.clauses[n - 1] for n in sorted(kept) if n > job.inputs]
    trace = [line(n, *job.clauses[n - 1], 0, *rows.get(n, []), 0) for n in sorted(kept)]
    text = f"accepted\ncore {len(core) + 1}\n" + formula(job.v, core)
    text += f"proof {len(proof)}\n" + "".join(line(*c, 0) for c in proof)
    text += f"trace {len(trace)}\n" + "".join(trace)
    if len(text) > 65536:
        raise Refused(6, 0)
    return text


def box(data):
    try:
        start, end = count_line(data, 0)
        text = data[start:end]
        v, count, found = heading(text)
        job = Job(v, 500, 16384)
        read_clauses(text, v, count, found, lambda ls, first: placed(job.clause, ls, first))
        start, end = count_line(data, end)
        load_proof(job, data[start:end])
        job.check(CoreFirst(), 32768)
        return printed(job)
    except Refused as r:
        return f"refused {r.number} {r.place}\n"


def standard_form(text):
    try:
        v, count, found = heading(text)
        if v > 512:
            raise Refused(7, 0)
        clauses = []
        read_clauses(text, v, count, found, lambda ls, first: clauses.append(arranged(ls, v)))
        return formula(v, clauses)
    except Refused as r:
        return f"refused {r.number} {r.place}\n"


if __name__ == "__main__":
    given = sys.stdin.buffer.read()
    sys.stdout.write(standard_form(given) if sys.argv[1:] == ["--dimacs"] else box(given))
