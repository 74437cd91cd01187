"""A plain, slow reading of docs/LANGUAGE.md, docs/RULES.md and docs/FORMATS.md: what `scc script` and `scc audit` must write for an
input, and whether what `scc batch` wrote is right. It keeps no state of a shadow but its position, and runs each program from its
start wherever it wants to know more."""
import re

BLANKS = b"\t\r "
LEAST, GREATEST = -(2 ** 63), 2 ** 63 - 1
KEYWORDS = {b"if", b"else", b"loop", b"emit", b"fail", b"min", b"max", b"sum"}
TOKEN = re.compile(rb"[a-z][a-z0-9_]*|[0-9]+|[=!<>]=|[{}\[\];=+\-*/%<>]")
MOST_LINE, MOST_PROGRAMS = 8192, 20000


class Refused(Exception):
    """A refusal, as it is printed behind `refuse`."""


def is_register(word):
    return word[:1] == b"r" and word[1:].isdigit() and str(int(word[1:])).encode() == word[1:] and int(word[1:]) < 16


def is_name(word):
    is_reserved = word in KEYWORDS or (word[:1] == b"r" and word[1:].isdigit())
    return re.fullmatch(rb"[a-z][a-z0-9_]*", word) is not None and not is_reserved


# Programs.

class Reader:
    """Reads a program: a block is a list of statements, a statement a tuple whose first part says which it is."""

    def __init__(self, text):
        self.text, self.at, self.names, self.broken = text, 0, [], set()
        self.statements = 0
        self.look()

    def look(self):
        while self.at < len(self.text) and self.text[self.at] in BLANKS:
            self.at += 1
        found = TOKEN.match(self.text, self.at)
        self.token = found.group() if found else b""

    def refuse(self):
        raise Refused(f"14 {self.at}")

    def take(self, wanted=None):
        token = self.token
        if token == b"" or (wanted is not None and token != wanted):
            self.refuse()
        self.at += len(token)
        self.look()
        return token

    def number(self):
        if not self.token.isdigit():
            self.refuse()
        return int(self.take())

    def operand(self):
        if is_register(self.token):
            return ("register", int(self.take()[1:]))
        sign = 1
        if self.token == b"-":
            self.take()
            sign = -1
        value = sign * self.number()
        if not LEAST <= value <= GREATEST:
            self.broken.add("literal")
        return ("number", value)

    def place(self):
        self.names.append((self.at, self.token))
        name = self.take()
        self.take(b"[")
        at = self.operand()
        self.take(b"]")
        return name, at

    def block(self, depth):
        if depth > 8:
            self.broken.add("depth")
        self.take(b"{")
        found = []
        while self.token != b"}":
            found.append(self.statement(depth))
        self.take(b"}")
        return found

    def statement(self, depth):
        self.statements += 1
        word = self.token
        if word == b"if":
            self.take()
            left = self.operand()
            if self.token not in (b"==", b"!=", b"<", b"<=", b">", b">="):
                self.refuse()
            sign = self.take()
            right = self.operand()
            then, other = self.block(depth + 1), []
            if self.token == b"else":
                self.take()
                other = self.block(depth + 1)
            return ("if", left, sign, right, then, other)
        if word == b"loop":
            self.take()
            count = self.number()
            if count > 1000:
                self.broken.add("loops")
            return ("loop", count, self.block(depth + 1))
        if word in (b"emit", b"fail"):
            self.take()
            done = (word.decode(), self.operand())
        elif is_register(word):
            done = self.set_register()
        elif is_name(word):
            name, at = self.place()
            self.take(b"=")
            done = ("write", name, at, self.operand())
        else:
            self.refuse()
        self.take(b";")
        return done

    def set_register(self):
        register = int(self.take()[1:])
        self.take(b"=")
        if is_name(self.token):
            return ("read", register, *self.place())
        left = self.operand()
        if self.token in (b"+", b"-", b"*", b"/", b"%", b"min", b"max"):
            return ("calc", register, left, self.take(), self.operand())
        return ("set", register, left)


def spelled(part):
    """The canonical spelling of a block, a statement or an operand."""
    if isinstance(part, list):
        return "{ " + "".join(spelled(one) + " " for one in part) + "}"
    if part[0] in ("register", "number"):
        return f"r{part[1]}" if part[0] == "register" else str(part[1])
    if part[0] == "if":
        other = f" else {spelled(part[5])}" if part[5] else ""
        return f"if {spelled(part[1])} {part[2].decode()} {spelled(part[3])} {spelled(part[4])}{other}"
    if part[0] == "loop":
        return f"loop {part[1]} {spelled(part[2])}"
    if part[0] in ("emit", "fail"):
        return f"{part[0]} {spelled(part[1])};"
    if part[0] == "write":
        return f"{part[1].decode()}[{spelled(part[2])}] = {spelled(part[3])};"
    value = f"{part[2].decode()}[{spelled(part[3])}]" if part[0] == "read" else spelled(part[2])
    if part[0] == "calc":
        value += f" {part[3].decode()} {spelled(part[4])}"
    return f"r{part[1]} = {value};"


def bounds(block):
    """How many steps a block may take and how many numbers it may emit, at most."""
    steps = emits = 0
    for part in block:
        if part[0] == "if":
            then, other = bounds(part[4]), bounds(part[5])
            more = 1 + max(then[0], other[0]), max(then[1], other[1])
        elif part[0] == "loop":
            body = bounds(part[2])
            more = 1 + part[1] * (1 + body[0]), part[1] * body[1]
        else:
            more = 1, 1 if part[0] == "emit" else 0
        steps, emits = steps + more[0], emits + more[1]
    return steps, emits


def read_program(text, tables):
    reader = Reader(text)
    body = reader.block(0)
    if reader.at < len(text):
        reader.refuse()
    for at, name in reader.names:
        if name not in tables:
            raise Refused(f"16 {at}")
    steps, emits = bounds(body)
    broken = reader.broken
    broken |= {limit for limit, is_broken in (("statements", reader.statements > 256), ("steps", steps > 100000),
                                              ("emits", emits > 64)) if is_broken}
    for limit in ("literal", "loops", "statements", "depth", "steps", "emits"):
        if limit in broken:
            raise Refused(f"15 {limit}")
    return body


class Faulted(Exception):
    """A step that ends its run, with the words of the outcome."""


def calculated(left, sign, right):
    if sign in (b"/", b"%") and right == 0:
        raise Faulted("fault zero")
    if sign == b"%":
        return (abs(left) % abs(right)) * (1 if left >= 0 else -1)
    if sign == b"/":
        value = abs(left) // abs(right) * (1 if (left >= 0) == (right >= 0) else -1)
    else:
        value = {b"+": left + right, b"-": left - right, b"*": left * right, b"min": min(left, right),
                 b"max": max(left, right)}[sign]
    if not LEAST <= value <= GREATEST:
        raise Faulted("fault overflow")
    return value


HOLDS = {b"==": lambda a, b: a == b, b"!=": lambda a, b: a != b, b"<": lambda a, b: a < b, b"<=": lambda a, b: a <= b,
         b">": lambda a, b: a > b, b">=": lambda a, b: a >= b}


class Run:
    """The run of a program over tables: `reads` has the place and item of each read of the tables, `wrote` of each write."""

    def __init__(self, body, tables, most=None):
        self.tables, self.registers, self.emits = tables, [0] * 16, []
        self.writes, self.log, self.reads, self.wrote = {}, {}, [], []
        self.position, self.outcome = 0, None
        rest = [list(reversed(body))]
        while most is None or self.position < most:
            while rest and not rest[-1]:
                rest.pop()
            if not rest:
                self.outcome = "done" + "".join(f" {value}" for value in self.emits)
                break
            part = rest[-1].pop()
            try:
                self.step(part, rest)
            except Faulted as fault:
                self.position += 1
                self.outcome = str(fault)
                break
            self.position += 1

    def value(self, operand):
        return self.registers[operand[1]] if operand[0] == "register" else operand[1]

    def item(self, name, at):
        index = self.value(at)
        if not 0 <= index < len(self.tables[name]):
            raise Faulted("fault range")
        return name, index

    def step(self, part, rest):
        if part[0] == "calc":
            self.registers[part[1]] = calculated(self.value(part[2]), part[3], self.value(part[4]))
        elif part[0] == "set":
            self.registers[part[1]] = self.value(part[2])
        elif part[0] == "read":
            item = self.item(part[2], part[3])
            if item not in self.writes and item not in self.log:
                self.log[item] = self.tables[item[0]][item[1]]
                self.reads.append((self.position, item))
            self.registers[part[1]] = self.writes.get(item, self.log.get(item))
        elif part[0] == "write":
            item = self.item(part[1], part[2])
            self.writes[item] = self.value(part[3])
            self.wrote.append((self.position, item))
        elif part[0] == "if":
            holds = HOLDS[part[2]](self.value(part[1]), self.value(part[3]))
            rest.append(list(reversed(part[4] if holds else part[5])))
        elif part[0] == "loop":
            if part[1] > 0:
                rest[-1].append(("loop", part[1] - 1, part[2]))
                rest.append(list(reversed(part[2])))
        elif part[0] == "emit":
            self.emits.append(self.value(part[1]))
        else:
            raise Faulted(f"failed {self.value(part[1])}")


def effect(run, tables):
    """The tables after a run that has ended."""
    if not run.outcome.startswith("done"):
        return tables
    after = {name: list(values) for name, values in tables.items()}
    for (name, index), value in run.writes.items():
        after[name][index] = value
    return after


# Lines.

COMMANDS = {b"table": ("name", "size"), b"put": ("name", "index", "value"), b"begin": ("deadline",), b"step": ("number",),
            b"run": (), b"commit": ("number",), b"withdraw": ("number",), b"show": ("number",), b"dump": ("name",),
            b"seal": (), b"drain": (), b"journal": (), b"report": ()}
BATCH = (b"table", b"put", b"begin")
RANGES = {"size": (1, 1024), "index": (0, 1023), "value": (LEAST, GREATEST), "deadline": (0, 10 ** 12), "number": (0, 2 ** 32 - 1)}


def words_of(line):
    return [word for word in re.split(rb"[\t\r ]+", line) if word]


def read_line(line, commands):
    """The command and its words, or nothing for a line without an answer; a `begin` has the bytes of its program last."""
    if len(line) > MOST_LINE:
        raise Refused("11")
    words = words_of(line)
    if not words or words[0].startswith(b"#"):
        return None
    if words[0] not in commands:
        raise Refused("12")
    wanted, given = COMMANDS[words[0]], words[1:]
    if words[0] == b"begin":
        given = given[:1]
    if words[0] == b"step" and len(given) == 2:
        wanted = ("number", "number")
    if len(given) != len(wanted):
        raise Refused("13")
    found = []
    for kind, word in zip(wanted, given):
        if kind == "name":
            found.append(word)
        elif re.fullmatch(rb"-?[0-9]+" if kind == "value" else rb"[0-9]+", word):
            found.append(int(word))
        else:
            raise Refused("13")
    for kind, value in zip(wanted, found):
        if kind in RANGES and not RANGES[kind][0] <= value <= RANGES[kind][1]:
            raise Refused("17")
    if words[0] == b"begin":
        found.append(line.strip(BLANKS)[len(b"begin"):].strip(BLANKS)[len(given[0]):].strip(BLANKS))
    return words[0], found


def lines_of(text):
    lines = text.split(b"\n")
    return lines[:-1] if lines[-1] == b"" else lines


class Opening:
    """The tables before the forest is opened."""

    def __init__(self):
        self.tables, self.is_open = {}, False

    def table(self, name, size):
        if self.is_open:
            raise Refused("21")
        if not (is_name(name) and len(name) <= 16):
            raise Refused("18")
        if name in self.tables:
            raise Refused("19")
        if len(self.tables) == 16 or sum(map(len, self.tables.values())) + size > 1024:
            raise Refused("20")
        self.tables[name] = [0] * size

    def put(self, name, index, value):
        if self.is_open:
            raise Refused("21")
        if name not in self.tables:
            raise Refused("22")
        if index >= len(self.tables[name]):
            raise Refused("31")
        self.tables[name][index] = value


def row(name, values):
    return f"{name.decode()} {' '.join(map(str, values))}"


# The forest in numbers.

class Started:
    """A started transaction: where its optimistic shadow stands, and guard, point and position of each other one."""

    def __init__(self, body, deadline):
        self.body, self.deadline, self.position, self.waiting = body, deadline, 0, []


class Forest:
    """What is committed, who has started, and who waits."""

    def __init__(self, tables, k, lanes):
        self.tables, self.k, self.lanes = tables, k, lanes
        self.started, self.queue, self.begun, self.entries, self.sealed = {}, {}, 0, [], False
        self.runs = {}

    def run(self, number):
        """The whole run of a started transaction over the tables of now."""
        if number not in self.runs:
            self.runs[number] = Run(self.started[number].body, self.tables)
        return self.runs[number]

    def has_ended(self, number):
        return self.started[number].position == self.run(number).position

    def point(self, reader, writer):
        wrote = {item for at, item in self.run(writer).wrote if at < self.started[writer].position}
        for at, item in self.run(reader).reads:
            if at < self.started[reader].position and item in wrote:
                return at
        return None

    def settle(self, before):
        """Each has the shadows that it wants, out of those that it had; `before` has where these stood."""
        for number, one in self.started.items():
            points = sorted((self.point(number, guard), guard) for guard in self.started
                            if guard != number and self.point(number, guard) is not None)
            kept = {guard: position for guard, _, position in one.waiting}
            sources = before.get(number, []) + list(kept.values()) + [0]
            waiting = []
            for point, guard in points[:self.k - 1]:
                position = kept.get(guard)
                if position is None or position > point:
                    position = max(at for at in sources if at <= point)
                waiting.append((guard, point, position))
            one.waiting = waiting

    def stands(self):
        return {number: [one.position] for number, one in self.started.items()}

    def live(self, number):
        if number not in self.started and number not in self.queue:
            raise Refused("25")

    def fill(self):
        """Whoever of those that wait comes first starts, where a lane is free."""
        if not self.queue or len(self.started) == self.lanes:
            return []
        number = min(self.queue, key=lambda n: (self.queue[n][1], n))
        self.started[number] = Started(*self.queue.pop(number))
        self.started = dict(sorted(self.started.items()))
        return [f"start {number}"]

    def begin(self, body, deadline):
        if self.sealed:
            raise Refused("24")
        if self.begun == MOST_PROGRAMS:
            raise Refused("23")
        self.begun += 1
        self.entries.append(("began", self.begun, deadline, body))
        self.queue[self.begun] = (body, deadline)
        return [f"begin {self.begun} {'started' if self.fill() else 'waiting'}"]

    def step(self, number, guard=None):
        self.live(number)
        if number in self.queue:
            raise Refused("26")
        one = self.started[number]
        if guard is None:
            if self.has_ended(number):
                raise Refused("27")
            before = self.stands()
            one.position += 1
            self.settle(before)
            return [f"step {number} o at {one.position}"]
        for place, (of, point, position) in enumerate(one.waiting):
            if of == guard:
                if position == point:
                    raise Refused("28")
                one.waiting[place] = (of, point, position + 1)
                return [f"step {number} {guard} at {position + 1}"]
        raise Refused("29")

    def pick(self):
        """Deadline, number, place and guard of the shadow that makes the next step."""
        rows = []
        for number, one in self.started.items():
            if not self.has_ended(number):
                rows.append((one.deadline, number, 0, None))
            rows += [(one.deadline, number, place + 1, guard) for place, (guard, point, position) in enumerate(one.waiting)
                     if position < point]
        return min(rows, key=lambda r: r[:3]) if rows else None

    def step_pick(self):
        picked = self.pick()
        if picked:
            self.step(picked[1], picked[3])
        return picked is not None

    def commit(self, number):
        self.live(number)
        if number in self.queue:
            raise Refused("26")
        if not self.has_ended(number):
            raise Refused("30")
        run = self.run(number)
        lines = [f"commit {number} {run.outcome}"]
        self.entries.append(("committed", number, run.outcome))
        changed = set(run.writes) if run.outcome.startswith("done") else set()
        del self.started[number]
        for other, one in self.started.items():
            cuts = [at for at, item in self.run(other).reads if at < one.position and item in changed]
            if cuts:
                left = [(guard, point, at) for guard, point, at in one.waiting if at <= cuts[0]]
                one.position = max([at for _, _, at in left], default=0)
                one.waiting = [shadow for shadow in left if shadow[2] <= cuts[0]]
                lines.append(f"resume {other} {one.position}")
        self.tables, self.runs = effect(run, self.tables), {}
        return lines + self.ended()

    def ended(self):
        """Behind a commit or withdrawal."""
        started = self.fill()
        self.settle(self.stands())
        return started

    def withdraw(self, number):
        self.live(number)
        if self.sealed:
            raise Refused("24")
        self.entries.append(("withdrawn", number))
        if number in self.queue:
            del self.queue[number]
            return [f"withdraw {number}"]
        del self.started[number]
        self.runs.pop(number, None)
        return [f"withdraw {number}"] + self.ended()

    def drain(self):
        lines, commits = [], 0
        while self.started:
            ended = [number for number in self.started if self.has_ended(number)]
            if ended:
                lines += self.commit(min(ended, key=lambda n: (self.started[n].deadline, n)))
                commits += 1
            elif not self.step_pick():
                break
        return lines + [f"drain {commits}"]

    def idle(self):
        steps = 0
        while self.step_pick():
            steps += 1
        return [f"run {steps}"]

    def shadow(self, number, who, position, runnable):
        one = self.started[number]
        run = Run(one.body, self.tables, position)
        whole = self.run(number).position
        standing = "ended" if position == whole else "runnable" if runnable else "blocked"
        line = f"shadow {number} {who} {standing}"
        line += "".join(f" r{at}={value}" for at, value in enumerate(run.registers) if value)
        items = [(name, index) for name, values in self.tables.items() for index in range(len(values))]
        line += "".join(f" {item[0].decode()}[{item[1]}]={run.writes[item]}" for item in items if item in run.writes)
        return line + "".join(f" emit={value}" for value in run.emits)

    def show(self, number):
        self.live(number)
        if number in self.queue:
            return [f"show {number} waiting"]
        one = self.started[number]
        lines = [self.shadow(number, f"o at {one.position}", one.position, True)]
        return lines + [self.shadow(number, f"{guard} at {at} point {point}", at, at < point) for guard, point, at in one.waiting]

    def journal(self):
        return journal_lines(self.entries)

    def seal(self):
        if not self.sealed:
            self.sealed = True
            self.entries.append(("sealed",))
        return ["seal"]


class Script:
    """What `scc script K LANES` answers."""

    def __init__(self, k, lanes, has_journal=True):
        self.opening, self.k, self.lanes, self.forest = Opening(), k, lanes, None
        self.commands = [command for command in COMMANDS if command != b"report" and (has_journal or command != b"journal")]

    def opened(self):
        if self.forest is None:
            self.opening.is_open = True
            self.forest = Forest(self.opening.tables, self.k, self.lanes)
        return self.forest

    def answer(self, line):
        try:
            found = read_line(line, self.commands)
            return [] if found is None else self.reply(*found)
        except Refused as refusal:
            return [f"refuse {refusal}"]

    def reply(self, command, words):
        forest = self.forest or Forest(self.opening.tables, self.k, self.lanes)
        if command in (b"table", b"put"):
            getattr(self.opening, command.decode())(*words)
            return [" ".join([command.decode(), words[0].decode(), *map(str, words[1:])])]
        if command == b"dump":
            if words[0] not in forest.tables:
                raise Refused("22")
            return [row(words[0], forest.tables[words[0]])]
        if command == b"begin":
            body = read_program(words[1], self.opening.tables)
            return self.opened().begin(body, words[0])
        if command == b"seal":
            return self.opened().seal()
        calls = {b"run": "idle"}
        return getattr(forest, calls.get(command, command.decode()))(*words)

    def text(self, given):
        lines = []
        for line in lines_of(given):
            lines += self.answer(line)
        forest = self.forest or Forest(self.opening.tables, self.k, self.lanes)
        lines += finals(forest.tables, sum(entry[0] == "committed" for entry in forest.entries))
        return "".join(line + "\n" for line in lines).encode()


def journal_lines(entries):
    """The journal as a table of four columns."""
    lines = ["entry,txn,deadline,detail"]
    for entry in entries:
        number = "" if entry[0] == "sealed" else entry[1]
        deadline = entry[2] if entry[0] == "began" else ""
        detail = spelled(entry[3]) if entry[0] == "began" else entry[2] if entry[0] == "committed" else ""
        lines.append(f"{entry[0]},{number},{deadline},{detail}")
    return lines


def finals(tables, commits):
    return [f"final {row(name, values)}" for name, values in tables.items()] + [f"end {commits}"]


# Batches.

class Input:
    """The tables and programs of a batch, or what is written where a line is refused; and for an audit what the last line names."""

    def __init__(self, lines, ends=()):
        opening, self.programs, self.bad, self.end, self.read = Opening(), [], None, None, 0
        for self.read, line in enumerate(lines, 1):
            try:
                self.take(opening, line, ends)
            except Refused as refusal:
                self.bad = f"bad {self.read} {str(refusal).split()[0]}"
            if self.bad or self.end:
                break
        if ends and not self.end and not self.bad:
            self.bad = f"bad {self.read + 1} 13"
        self.tables = opening.tables

    def take(self, opening, line, ends):
        found = read_line(line, BATCH + ends)
        if found is None:
            return
        command, words = found
        if command in ends:
            self.end = command
        elif command == b"begin":
            self.programs.append(read_program(words[1], opening.tables))
            opening.is_open = True
            if len(self.programs) > MOST_PROGRAMS:
                raise Refused("23")
        else:
            getattr(opening, command.decode())(*words)


def is_report(given, written):
    """Whether this is what a batch may write: one refused line, or the report of its own order with each program once."""
    read = Input(lines_of(given))
    if read.bad:
        return written == f"{read.bad}\n".encode()
    return written[-1:] == b"\n" and report_verdict(read, lines_of(written)) == f"yes {len(read.programs)}"


def report_verdict(read, lines):
    """Whether these lines are the report of their own order, or the first of them, behind those before, that none has."""
    tables, left, last = read.tables, set(range(1, len(read.programs) + 1)), None
    for place, line in enumerate(lines, read.read + 1):
        named = re.match(rb"commit ([0-9]{1,10}) ", line)
        number = int(named.group(1)) if named else 0
        if number in left:
            run = Run(read.programs[number - 1], tables)
            if line != f"commit {number} {run.outcome}".encode():
                return f"no {place}"
            left.remove(number)
            tables = effect(run, tables)
            continue
        if last is None:
            last = finals(tables, len(read.programs))
        if left or not last or line != last.pop(0).encode():
            return f"no {place}"
    if left or last or last is None:
        return f"no {read.read + len(lines) + 1}"
    return f"yes {len(read.programs)}"


# Audits.

def records_of(text):
    """The records of a table with commas: fields may stand in quotes, and each line break ends a record, but where nothing is in it."""
    if text.startswith(b"\xef\xbb\xbf"):
        text = text[3:]
    records, fields, field, quoted, begun = [], [], bytearray(), False, False
    at = 0
    while at < len(text):
        sign = text[at:at + 1]
        at += 1
        if quoted:
            if sign != b'"':
                field += sign
            elif text[at:at + 1] == b'"':
                field += sign
                at += 1
            else:
                quoted = False
        elif sign == b'"' and not field and begun != "field":
            quoted, begun = True, "field"
        elif sign == b",":
            fields.append(bytes(field))
            field, begun = bytearray(), True
        elif sign in b"\r\n":
            if begun:
                records.append(fields + [bytes(field)])
            fields, field, begun = [], bytearray(), False
        else:
            field += sign
            begun = "field"
    if begun:
        records.append(fields + [bytes(field)])
    return records


class Journal:
    """A journal that is read, an entry after the other."""

    def __init__(self, tables):
        self.tables, self.programs, self.live, self.sealed, self.commits = tables, [], set(), False, 0

    def number(self, word):
        if not re.fullmatch(rb"0|[1-9][0-9]*", word):
            raise Refused("number")
        return int(word)

    def take(self, record):
        """Takes in a record, or refuses it."""
        if len(record) != 4:
            raise Refused("fields")
        entry, txn, deadline, detail = record
        if entry == b"sealed" and (txn, deadline, detail) == (b"", b"", b"") and not self.sealed:
            self.sealed = True
            return
        number = self.number(txn)
        if entry == b"began":
            if self.sealed or number != len(self.programs) + 1 or number > MOST_PROGRAMS or self.number(deadline) > 10 ** 12:
                raise Refused("began")
            self.programs.append(read_program(detail, self.tables))
            self.live.add(number)
        elif entry == b"committed" and deadline == b"" and number in self.live:
            run = Run(self.programs[number - 1], self.tables)
            if run.outcome.encode() != detail:
                raise Refused("outcome")
            self.live.remove(number)
            self.tables, self.commits = effect(run, self.tables), self.commits + 1
        elif entry == b"withdrawn" and (deadline, detail) == (b"", b"") and number in self.live and not self.sealed:
            self.live.remove(number)
        else:
            raise Refused("entry")


def journal_verdict(tables, text):
    """Whether these bytes are the table of a legal journal, or the first record that none has behind those before."""
    journal, records = Journal(tables), records_of(text)
    if not records or records[0] != [b"entry", b"txn", b"deadline", b"detail"]:
        return "no 1"
    for number, record in enumerate(records[1:], 2):
        try:
            journal.take(record)
        except Refused:
            return f"no {number}"
    return f"yes {journal.commits}"


def audit(given):
    """What `scc audit` writes."""
    lines = lines_of(given)
    read = Input(lines, (b"report", b"journal"))
    if read.bad:
        return f"{read.bad}\n".encode()
    if read.end == b"report":
        return f"{report_verdict(read, lines[read.read:])}\n".encode()
    rest = given.split(b"\n", read.read)
    return f"{journal_verdict(read.tables, rest[read.read] if len(rest) > read.read else b'')}\n".encode()
