#!/usr/bin/env python3
"""A second judge of journals, in another language, by the definitions alone.

    tools/judge.py NET TRACE JOURNAL                      shows what `polis replay` shows
    tools/judge.py --chart NET TRACE JOURNAL [FROM TO]    shows what `polis chart` shows
    tools/judge.py --fuzz PROGRAM [SEEDS]                 compares them on drawn networks

It reads a network text that `polis check` accepts, a trace text and a journal text that `polis
replay` reads, and goes by docs/FORMATS.md and docs/LANGUAGE.md: no code and no text of the program
is used. With --fuzz it draws the networks and traces of `polis demo` for the seeds from 1 to SEEDS
(10 where none is named), compares the summaries of `demo` and `run`, judges the journals of one
worker and of four, and then journals in which a line was altered; and of each seed small networks
besides, with drawn runs of them, whose machines also wait, jam and send to themselves. Of each
journal it compares the verdict and charts: the whole one of those that weren't altered, and drawn
windows of all. What differs is shown; the status is 1 where anything does, and 0 else.
"""

import random
import re
import subprocess
import sys
import tempfile
from collections import defaultdict, deque
from pathlib import Path

ENV = "env"
ENTRIES_MAX = 60000
ALTERED = 12
SMALL = 10
WINDOWS = 3
SECONDS = 300


class Machine:
    """A machine as the text declares it; a row is its conditions and its actions."""

    def __init__(self, name):
        self.name, self.inputs, self.outputs, self.states, self.rows = name, [], [], {}, []
        self.priority = None


class Network:
    """The values of domains, the domain of each event, and the machines."""

    def __init__(self, text):
        self.tokens = deque(re.findall(r"\w+|:=|\.\.|\S", re.sub(r"#[^\n]*", "", text)))
        self.domains, self.events, self.from_env, self.machines = {}, {}, set(), {}
        self.to_env = set()
        self.name = self.take(4)[1]
        readers = {"domain": self.domain, "event": self.event, "machine": self.machine}
        while self.tokens:
            readers[self.next()]()
        self.readers = defaultdict(list)
        for machine in self.machines.values():
            for event in machine.inputs:
                self.readers[event].append(machine.name)

    def next(self):
        return self.tokens.popleft()

    def take(self, count):
        return [self.next() for _ in range(count)]

    def goes_on(self, token):
        """Takes the token where it comes next."""
        there = bool(self.tokens) and self.tokens[0] == token
        return there and bool(self.next())

    def listed(self):
        found = [self.next()]
        while self.goes_on(","):
            found.append(self.next())
        return found

    def domain(self):
        name = self.take(2)[0]
        if self.goes_on("{"):
            self.domains[name] = self.listed()
            self.next()
        else:
            first, _, last = self.take(3)
            self.domains[name] = [str(it) for it in range(int(first), int(last) + 1)]

    def event(self):
        name = self.next()
        self.events[name] = self.next() if self.goes_on(":") else None
        if self.goes_on("from"):
            self.from_env.add(name)
            self.next()
        elif self.goes_on("to"):
            self.to_env.add(name)
            self.next()

    def machine(self):
        machine = Machine(self.next())
        self.machines[machine.name] = machine
        machine.priority = self.take(3)[1]
        while not self.goes_on("}"):
            word = self.next()
            if word == "input":
                machine.inputs = self.listed()
            elif word == "output":
                machine.outputs = self.listed()
            elif word == "state":
                name, _, domain, _, value = self.take(5)
                machine.states[name] = (domain, value)
            else:
                machine.rows.append(self.row())

    def row(self):
        conditions, actions = [self.condition()], []
        while self.goes_on(","):
            conditions.append(self.condition())
        self.next()
        if not self.goes_on("nothing"):
            actions.append(self.action())
            while self.goes_on(","):
                actions.append(self.action())
        return conditions, actions

    def condition(self):
        """A name with the values that it may have; None stands for absence, no list for any."""
        if self.goes_on("absent"):
            return self.next(), [None]
        name = self.next()
        if self.goes_on("="):
            return name, [self.next()]
        if self.goes_on("in"):
            self.next()
            values = self.listed()
            self.next()
            return name, values
        return name, None

    def action(self):
        """What is set or emitted, and its value: a word, ('value', input) or ('plus', number)."""
        if self.goes_on("emit"):
            name = self.next()
            return "emit", name, self.source() if self.goes_on("=") else ""
        name = self.next()
        self.next()
        return "set", name, self.source()

    def source(self):
        word = self.next()
        if word == "value":
            return "value", self.next()
        return ("plus", int(self.next())) if self.goes_on("+") else word

    def outcome(self, machine, seen):
        """What the first row that is enabled sets and emits, or None; absent inputs aren't seen."""
        enabled = [actions for conditions, actions in machine.rows if enables(conditions, seen)]
        if not enabled:
            return None
        given = {"set": {}, "emit": {}}
        for kind, name, source in enabled[0]:
            given[kind][name] = self.value(machine, name, source, seen)
        return given

    def value(self, machine, name, source, seen):
        if not isinstance(source, tuple):
            return source
        if source[0] == "value":
            return seen[source[1]]
        words = self.domains[machine.states[name][0]]
        return words[(words.index(seen[name]) + source[1]) % len(words)]


def trace_of(text):
    """The events that the environment sends, in order, each with its value."""
    lines = [re.split(r"[ \t\r]+", line.split("#")[0].strip(" \t\r")) for line in text.split("\n")]
    return [(words[0], words[1] if len(words) > 1 else "") for words in lines
            if words[0] not in ("", "settle")]


def items(text):
    """The items of a list, by name; an event without a value has the empty one."""
    if text == "-":
        return {}
    return {it.partition("=")[0]: it.partition("=")[2] for it in text.split(" ")}


def entry_of(line):
    """An entry: its stamp, if any, its kind, and what it says."""
    stamp = re.match(r"@(\d+) ", line)
    words = line[stamp.end():] if stamp else line
    kind, _, rest = words.partition(" ")
    if kind == "dep":
        sender, receiver, event = rest.split(" ")
        name, _, value = event.partition("=")
        said = sender, receiver, (name, value)
    elif kind == "fire":
        said = re.fullmatch(r"(\w+) : (.*) ; (.*) -> (.*) ; (.*)", rest).groups()
    else:
        said = re.fullmatch(r"(\w+) : (.*) ; (.*)", rest).groups()
    return (int(stamp[1]) if stamp else None), kind, said


def enables(conditions, seen):
    return all(name in seen if values is None else seen.get(name) in values
               for name, values in conditions)


class Run:
    """What is so after some entries: places, states, who is woken, what is owed, and stamps."""

    def __init__(self, net, trace):
        self.net = net
        self.places = {name: {} for name in net.machines}
        self.states = {name: {state: value for state, (_, value) in machine.states.items()}
                       for name, machine in net.machines.items()}
        self.woken, self.owed, self.clock = set(), defaultdict(deque), defaultdict(int)
        for event, value in trace:
            self.send(ENV, event, value, 0)

    def send(self, sender, event, value, stamp):
        for receiver in self.net.readers[event]:
            self.owed[sender, receiver].append(((event, value), stamp))

    def outcome(self, machine):
        """What the rows give on the snapshot, or None."""
        return self.net.outcome(machine, {**self.states[machine.name], **self.places[machine.name]})

    def follows(self, entry):
        """Whether the entry may come next; where it may, it has come."""
        stamp, kind, said = entry
        return self.lands(stamp, *said) if kind == "dep" else self.reacts(stamp, kind, *said)

    def rises(self, machine, stamp, above):
        if stamp is None:
            return True
        fine = stamp > max(self.clock[machine], above)
        self.clock[machine] = stamp
        return fine

    def lands(self, stamp, sender, receiver, event):
        queue = self.owed[sender, receiver]
        if not queue or queue[0][0] != event:
            return False
        _, fired = queue.popleft()
        self.places[receiver][event[0]] = event[1]
        self.woken.add(receiver)
        return self.rises(receiver, stamp, fired)

    def reacts(self, stamp, kind, name, present, state, set_to="-", emitted="-"):
        machine = self.net.machines[name]
        seen = {it: self.places[name][it] for it in machine.inputs if it in self.places[name]}
        if name not in self.woken or items(present) != seen or items(state) != self.states[name]:
            return False
        given = self.outcome(machine)
        if (kind == "fire") != (given is not None):
            return False
        if given is not None and (items(set_to), items(emitted)) != (given["set"], given["emit"]):
            return False
        self.woken.discard(name)
        if given is not None:
            self.states[name].update(given["set"])
            self.places[name] = {}
            for event in machine.outputs:
                if event in given["emit"]:
                    self.send(name, event, given["emit"][event], stamp or 0)
        return self.rises(name, stamp, 0)

    def is_complete(self):
        return not self.woken and not any(self.owed.values())


def verdict(net, trace, journal):
    """The line that `replay` shows."""
    run, lines = Run(net, trace), journal.splitlines()[1:-1]
    for number, line in enumerate(lines):
        if not run.follows(entry_of(line)):
            return f"illegal {number}"
    return f"legal {len(lines)} {'complete' if run.is_complete() else 'open'}"


class Shown:
    """What a chart shows of an entry: its number, between whom it is, and its notes; of a delivery
    its item, and of a reaction its label. A reaction is between a machine and itself. What is set
    is a note only where the label of a firing is too long."""

    def __init__(self, number, sender, receiver, notes, item="", label="", sets=""):
        self.number, self.sender, self.receiver, self.notes = number, sender, receiver, notes
        self.item, self.label, self.sets = item, label, sets


def enabled(machine, seen):
    return any(enables(conditions, seen) for conditions, _ in machine.rows)


def is_jammed(machine, states, present):
    """Whether no row is enabled, and one would be if one of the inputs that are present were alone.
    """
    alone = ({**states, event: value} for event, value in present.items())
    return not enabled(machine, {**states, **present}) and any(enabled(machine, it) for it in alone)


def unused(net, machine, states, present):
    """The inputs without which the same comes of it, where some other input is present."""
    given = net.outcome(machine, {**states, **present})
    for event in machine.inputs:
        others = {it: value for it, value in present.items() if it != event}
        if event in present and others and net.outcome(machine, {**states, **others}) == given:
            yield event


def shown_of(run, number, entry, came):
    """What is shown of the next entry. `came` has, of each machine, the entry that delivered each
    event that is present there."""
    _, kind, said = entry
    if kind == "dep":
        sender, receiver, (event, value) = said
        notes = [f"lost {came[receiver][event]}"] if event in came[receiver] else []
        return Shown(number, sender, receiver, notes, item=f"{event}={value}" if value else event)
    name, seen = said[:2]
    machine, states, present = run.net.machines[name], run.states[name], run.places[name]
    if kind == "idle":
        label = "jammed" if is_jammed(machine, states, present) else "idle"
        return Shown(number, name, name, [f"sees {seen}"], label=label)
    sets, emitted = ("" if it == "-" else it for it in said[3:])
    notes = [f"emits {emitted}"] if emitted else []
    notes += [f"unused {event}" for event in unused(run.net, machine, states, present)]
    return Shown(number, name, name, notes, label=f"[{sets}]", sets=sets)


def all_shown(net, trace, journal):
    """What is shown of each entry of a legal journal."""
    run, came, found = Run(net, trace), defaultdict(dict), []
    for number, line in enumerate(journal.splitlines()[1:-1]):
        entry = entry_of(line)
        found.append(shown_of(run, number, entry, came))
        if entry[1] == "dep":
            came[entry[2][1]][entry[2][2][0]] = number
        elif entry[1] == "fire":
            came[entry[2][0]] = {}
        run.follows(entry)
    return found


def laid(picture, text, place):
    """The picture with a text laid over it from a place on."""
    return picture[:place] + text + picture[place + len(text):]


def centred(picture, text, place):
    return laid(picture, text, place - len(text) // 2)


def with_arrow(picture, item, here, there):
    """The picture with an arrow from one axis to another, over whose middle an item stands."""
    low, high = sorted((here, there))
    picture = laid(picture, "-" * (high - low - 1), low + 1)
    if here < there:
        return centred(laid(picture, ">", high - 1), f" {item} ", (low + high) // 2)
    return centred(laid(picture, "<", low + 1), f" {item} ", (low + high) // 2 + 1)


def drawn_line(shown, axes, width):
    """The line of an entry: its number, its picture and its notes."""
    picture, notes = " " * (width * len(axes)), shown.notes
    for axis in axes.values():
        picture = laid(picture, "|", axis)
    here, there = axes[shown.sender], axes[shown.receiver]
    if here != there:
        picture = with_arrow(picture, shown.item, here, there)
    elif shown.item:
        picture = centred(picture, f"({shown.item})", here)
    elif len(shown.label) > width:
        picture, notes = centred(picture, "[..]", here), [f"sets {shown.sets}", *notes]
    else:
        picture = centred(picture, shown.label, here)
    line = f"{shown.number:6} {picture.rstrip(' ')}"
    return line + ("  " + ", ".join(notes) if notes else "")


def chart_of(net, shown):
    """The lines of a chart of these entries."""
    named = {name for it in shown for name in (it.sender, it.receiver)}
    columns = [ENV] + [name for name in net.machines if name in named]
    width = 6 + max(len(it) for it in columns + [it.item for it in shown])
    axes = {name: k * width + width // 2 for k, name in enumerate(columns)}
    head = " " * (width * len(axes))
    for name, axis in axes.items():
        head = centred(head, name, axis)
    lines = [" " * 7 + head.rstrip(" ")] + [drawn_line(it, axes, width) for it in shown]
    return "\n".join(lines)


def chart(net, trace, journal, first=0, end=ENTRIES_MAX):
    """What `chart` shows of the entries from the first one on, up to the end and without it."""
    said = verdict(net, trace, journal)
    if said.startswith("illegal"):
        return said
    return chart_of(net, all_shown(net, trace, journal)[first:end])


def demo_texts(seed):
    """The network text and the trace text of a seed, as docs/FORMATS.md has them."""
    x = seed

    def draw(k):
        nonlocal x
        x = (x * 6364136223846793005 + 1442695040888963407) % 2 ** 64
        return (x >> 33) % k

    n = 24 + draw(25)
    text = ["network demo version 1", "domain d = 0 .. 7"]
    text += [line for i in range(n)
             for line in (f"event t{i} from env", f"event e{i} : d", f"event o{i} to env")]
    for i in range(n):
        j = (i + 1) % n
        text += [f"machine m{i} priority {draw(4)} {{", f"  input t{i}, e{i}",
                 f"  output e{j}, o{i}", "  state s : d = 0"]
        for v in range(8):
            a, b = draw(8), draw(8)
            text.append(f"  when t{i}, absent e{i}, s = {v} do s := {a}, emit e{j} = {b}")
        text += [f"  when e{i} = {w} do s := {draw(8)}, emit e{j} = {w - 1}" for w in range(1, 8)]
        text += [f"  when e{i} = 0 do s := {draw(8)}, emit o{i}", "}"]
    ticks = [line for k in range(2000)
             for line in ([f"t{draw(n)}"] + (["settle"] if k % 10 == 9 else []))]
    return "\n".join(text) + "\n", "\n".join(ticks) + "\n"


def altered(journal, rng):
    """The journal with an entry left out, put twice or exchanged, or with another stamp."""
    head, *lines, _ = journal.splitlines()
    k, other = rng.randrange(len(lines)), rng.randrange(len(lines))
    way = rng.randrange(4)
    if way == 0:
        del lines[k]
    elif way == 1:
        lines.insert(other, lines[k])
    elif way == 2:
        lines[k], lines[other] = lines[other], lines[k]
    else:
        lines[k] = re.sub(r"^@\d+", f"@{rng.randrange(1, 200)}", lines[k])
    return "\n".join([head, *lines, f"end {len(lines)} limit"]) + "\n"


def shows(program, words, room):
    ran = subprocess.run([program, *words], cwd=room, capture_output=True, text=True,
                         timeout=SECONDS)
    return ran.stdout + ran.stderr


def drawn_values(rng):
    """A domain's text, and its words."""
    if rng.random() < 0.5:
        return "0 .. 3", [str(it) for it in range(4)]
    words = [rng.choice("uvw") * rng.randrange(1, 12) + str(it) for it in range(3)]
    return f"{{ {', '.join(words)} }}", words


class Drawn:
    """A network that is drawn: a few machines with names of any length, whose tables have rows for
    some of the ways in which their inputs may be present."""

    def __init__(self, rng):
        self.rng = rng
        self.domains = {f"d{it}": drawn_values(rng) for it in range(3)}
        self.machines = [self.name("m", it) for it in range(rng.randrange(1, 7))]
        self.reads, self.sends = defaultdict(list), defaultdict(list)
        self.events, self.ways = {}, {}
        for machine in self.machines:
            self.event("", " from env", [machine, rng.choice(self.machines)])
        for machine in self.machines * 2:
            readers = rng.sample(self.machines, min(len(self.machines), rng.randrange(3)))
            self.event(machine, "" if readers else " to env", readers)

    def name(self, letter, number):
        return letter * self.rng.randrange(1, 9) + str(number)

    def event(self, sender, way, readers):
        readers = [it for it in dict.fromkeys(readers) if len(self.reads[it]) < 4]
        if sender and not readers:
            way = " to env"
        if not sender and not readers:
            return
        name = self.name("e", len(self.events))
        self.events[name] = self.rng.choice([None, *self.domains])
        self.ways[name] = way
        for reader in readers:
            self.reads[reader].append(name)
        if sender:
            self.sends[sender].append(name)

    def with_value(self, name, domain, sign):
        return f"{name}{sign}{self.rng.choice(self.domains[domain][1])}" if domain else name

    def actions(self, machine, states):
        sets = [self.with_value(it, domain, " := ") for it, domain in states.items()]
        emits = [f"emit {self.with_value(it, self.events[it], ' = ')}"
                 for it in self.sends[machine]]
        return ", ".join(it for it in sets + emits if self.rng.random() < 0.5) or "nothing"

    def rows(self, machine, states):
        inputs, rng = self.reads[machine], self.rng
        choices = [self.actions(machine, states) for _ in range(3)]
        for way in range(1, 2 ** len(inputs)):
            conditions = [f"{'' if way >> it & 1 else 'absent '}{name}"
                          for it, name in enumerate(inputs)]
            if states and rng.random() < 0.3:
                conditions.append(self.with_value("s0", states["s0"], " = "))
            if rng.random() < 0.7:
                yield f"  when {', '.join(conditions)} do {rng.choice(choices)}"

    def machine(self, name):
        states = {f"s{it}": self.rng.choice([*self.domains])
                  for it in range(self.rng.randrange(3))}
        yield f"machine {name} priority {self.rng.randrange(4)} {{"
        yield f"  input {', '.join(self.reads[name])}"
        if self.sends[name]:
            yield f"  output {', '.join(self.sends[name])}"
        for state, domain in states.items():
            yield "  " + self.with_value(f"state {state} : {domain}", domain, " = ")
        yield from self.rows(name, states)
        yield "}"

    def lines(self):
        yield "network small version 1"
        yield from (f"domain {it} = {text}" for it, (text, _) in self.domains.items())
        for name, domain in self.events.items():
            yield f"event {name}{f' : {domain}' if domain else ''}{self.ways[name]}"
        for name in self.machines:
            yield from self.machine(name)

    def trace(self):
        sent = [it for it, way in self.ways.items() if way == " from env"]
        for _ in range(40):
            name = self.rng.choice(sent)
            yield self.with_value(name, self.events[name], " ")
            if self.rng.random() < 0.3:
                yield "settle"


def drawn_window(rng, count):
    first, end = rng.randrange(count + 1), rng.randrange(count + 2)
    return (first, end) if rng.random() < 0.2 else (min(first, end), max(first, end))


class Compared:
    """What the two judges say of the journals of one network on one trace."""

    def __init__(self, program, room, title, texts, rng):
        self.program, self.room, self.title, self.rng = program, room, title, rng
        (room / "net").write_text(texts[0])
        (room / "trc").write_text(texts[1])
        self.net, self.trace = Network(texts[0]), trace_of(texts[1])
        self.journals = self.charts = 0
        self.found = []

    def shows(self, *words):
        return shows(self.program, [str(it) for it in words], self.room)

    def made(self, *words):
        """What a run shows, and its journal."""
        shown = self.shows(*words)
        return shown, (self.room / "o.jnl").read_text()

    def expect(self, title, said, wanted):
        if said != wanted + "\n":
            self.found.append(f"{self.title}, journal {self.journals}, {title}: {said.strip()!r}, "
                              f"and not {wanted!r}")

    def judge(self, journal, windows):
        """Compares the verdict on a journal, and its charts of some windows."""
        (self.room / "jnl").write_text(journal)
        said, of_files = verdict(self.net, self.trace, journal), ("net", "trc", "jnl")
        self.expect("replay", self.shows("replay", *of_files), said)
        is_legal = said.startswith("legal")
        shown = all_shown(self.net, self.trace, journal) if is_legal else []
        for first, end in windows:
            wanted = chart_of(self.net, shown[first:end]) if is_legal else said
            words = ["--from", first, "--to", end] if first or end < ENTRIES_MAX else []
            self.expect(f"chart {first} {end}", self.shows("chart", *of_files, *words), wanted)
            self.charts += 1
        self.journals += 1

    def judge_all(self, journals):
        """Compares what is said of the journals, and of altered ones."""
        for journal in journals:
            drawn = [drawn_window(self.rng, len(journal.splitlines()) - 2) for _ in range(WINDOWS)]
            self.judge(journal, [(0, ENTRIES_MAX), *drawn])
            for _ in range(ALTERED if len(journal.splitlines()) > 2 else 0):
                other = altered(journal, self.rng)
                self.judge(other, [drawn_window(self.rng, len(other.splitlines()) - 2)])


def of_demo(program, seed, room):
    """What is compared of the network of a demo."""
    compared = Compared(program, room, f"seed {seed}", demo_texts(seed), random.Random(seed))
    alone, journal = compared.made("run", "net", "trc", "o", "--workers", 1)
    if alone != compared.shows("demo", seed):
        compared.found.append(f"seed {seed}: demo and run show different summaries")
    _, by_four = compared.made("run", "net", "trc", "o", "--workers", 4)
    compared.judge_all([journal, by_four])
    return compared


def of_small(program, seed, number, room):
    """What is compared of a small network that is drawn."""
    rng = random.Random(f"{seed} {number}")
    drawn = Drawn(rng)
    texts = ["".join(f"{line}\n" for line in lines) for lines in (drawn.lines(), drawn.trace())]
    title = f"seed {seed}, small network {number}"
    compared = Compared(program, room, title, texts, rng)
    accepted = compared.shows("check", "net")
    if not accepted.startswith("accepted"):
        compared.found.append(f"{title}: {accepted.strip()}")
        return compared
    compared.judge_all([compared.made("shuffle", "net", "trc", "o", it, "--limit", 200)[1]
                        for it in range(2)])
    return compared


def fuzz(program, seeds):
    journals, charts, found = 0, 0, []
    with tempfile.TemporaryDirectory() as room:
        for seed in range(1, seeds + 1):
            of_seed = [of_demo(program, seed, Path(room))]
            of_seed += [of_small(program, seed, it, Path(room)) for it in range(SMALL)]
            journals += sum(it.journals for it in of_seed)
            charts += sum(it.charts for it in of_seed)
            found += [line for it in of_seed for line in it.found]
    print("\n".join(found + [f"{journals} journals and {charts} charts judged, "
                             f"{len(found)} differ"]))
    return 1 if found else 0


def main():
    words = sys.argv[1:]
    if words[:1] == ["--fuzz"] and len(words) in (2, 3):
        sys.exit(fuzz(str(Path(words[1]).resolve()), int(words[2]) if len(words) > 2 else 10))
    is_chart = words[:1] == ["--chart"] and len(words) in (4, 6)
    if len(words) != 3 and not is_chart:
        sys.exit(__doc__)
    net, trace, journal = (Path(it).read_text() for it in words[is_chart:is_chart + 3])
    if is_chart:
        print(chart(Network(net), trace_of(trace), journal, *(int(it) for it in words[4:])))
    else:
        print(verdict(Network(net), trace_of(trace), journal))


if __name__ == "__main__":
    main()
