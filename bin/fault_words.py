"""What the fault lines of the programs mean, in words: bin/where and bin/run_program.py tell it.

Lines and columns count from 1, columns in bytes.
"""
import difflib
import os
import re
import sys

HERE = os.path.dirname(os.path.abspath(__file__))
# The page that lists keys and values of model texts: in the sources, or beside this file where it is installed.
PAGES = (f"{os.path.dirname(HERE)}/docs/FORMATS.md", f"{HERE}/FORMATS.md")
SECTIONS = ("NODES", "LINKS", "DEMANDS", "META", "ADMISSIBLE_PATHS")
LINK = ("pre-installed capacity", "cost of the pre-installed capacity", "routing cost", "setup cost")
DEMAND = ("routing unit (a whole number)", "value", "hop limit (a whole number or UNLIMITED)")
HEADER = "?SNDlib native format; type: {}; version: 1.0"
WIDTH = 150

LIMITS = {
    "3": "nodes, and at most 512 are planned",
    "4": "links, and at most 1,024 are planned",
    "5": "demands, and at most 4,096 are planned",
    "6": "has more than 32 modules",
    "7": "the loads of the demands add up to more than 10^12 units",
    "8": "its routing cost times the total load is above 10^18 units of cost",
    "9": "has more than 4,096 steps of cost up to the total load: leave out its smallest modules, or bundle ten of each",
}
REJECTED = {
    "9": "it states other counts of nodes, links or demands than the network has, or ONE for bidirected links, or BOTH for others",
    "2": "it states the cost {0}, and its design costs {1}",
    "5": "it states {0} examined nodes, and its tree has {1}",
    "6": "it states the bound {0}, and its open leaves give {1}",
    "11": "its cut {0}, counted from 0, has no node in its set or all of them, has numbers out of range, or is the same as an earlier one",
    "10": "it examined {0} nodes with a budget of {1}: too many, or too few for an undecided plan",
}
DESIGN = {
    "1": "there is not one path for each demand and one list of counts for each link",
    "2": "a path is none",
    "3": "a path meets a node twice",
    "4": "the counts of a link are not those of its modules, are too large, or add to more than 1 with explicit capacities",
    "5": "the load of a link is above its capacity",
    "6": "a path has more arcs than its demand's limit",
}
RECORD = {
    "SPLIT": "its demand, node and arcs exist; neither set is empty; all arcs leave the node; no arc is in both sets; none is forbidden to the demand already",
    "LOADS": "its place exists; the range of the place has loads up to this load, and loads above it",
    "PRICED": "no price is above the price limit; each demand has a permitted path; the bound is above the cost less the unit of costs",
    "ROUTED": "each demand has a permitted path; no demand has a second one; every link can carry its load; these paths cost at least as much as the design; none has more arcs than its demand's limit",
    "OVERFULL": "the link exists; each demand has a permitted path; no demand has a second one; the link cannot carry its load, or the load of a place of it is outside the range of the place",
    "CUT": "the demand exists; its source is in the set; its target is not; no permitted arc leaves the set",
    "FAR": "the demand exists and has a limit; each permitted path of it has more arcs",
    "CROWD": "no price is above the price limit; places of useful links have the price 0 where their ranges end at the top load; each demand has a permitted path; the demands ask for more than there is",
    "OPEN": "no price is above the price limit",
}


class Text:
    """A file as text, a byte a character, and its tokens with their places."""

    def __init__(self, path, kind):
        self.path, self.kind = path, kind
        with open(path, "rb") as file:
            self.bytes = file.read().decode("latin-1")
        self.header = self.bytes.split("\n", 1)[0]
        signs = r"[()=]|[^\s()=#]+" if kind == "model" else r"[()]|[^\s()#]+"
        found = re.finditer(rf"#[^\n]*|{signs}", self.bytes[len(self.header) :])
        self.tokens = [(it.start() + len(self.header), it[0]) for it in found if it[0][0] != "#"]

    def show(self, at, name=""):
        """The line and the column of a place, and the line with a mark."""
        start = self.bytes.rfind("\n", 0, at) + 1
        end = self.bytes.find("\n", at)
        line = self.bytes[start : end if end >= 0 else len(self.bytes)].rstrip("\r")
        note = ", the end of the text" if at == len(self.bytes) else ""
        say(f"{name}line {self.bytes.count(chr(10), 0, at) + 1}, column {at - start + 1}{note}")
        first = max(0, at - start - WIDTH // 2) if len(line) > WIDTH else 0
        cut = line[first : first + WIDTH]
        write(cut)
        write(re.sub(r"[^\t]", " ", cut[: at - start - first]) + "^")

    def word(self, at):
        return next((word for place, word in self.tokens if place == at), "")

    def wants(self):
        """Each token with what is wanted in its place, as long as that is said, and the end of the text with it."""
        grammar = model_wants() if self.kind == "model" else network_wants()
        want = next(grammar)
        for place, word in self.tokens:
            yield place, want, word
            try:
                want = grammar.send(word)
            except StopIteration:
                return
        yield len(self.bytes), want, ""

    def wanted(self, at):
        return next((want for place, want, _ in self.wants() if place == at), None)


class Place:
    """Where the words go, what stands before the first line of them, and before the others."""

    out, mark, other = sys.stdout, "", ""


def write(line):
    """Writes a line of a file, byte for byte."""
    Place.out.flush()
    Place.out.buffer.write(Place.mark.encode() + line.encode("latin-1") + b"\n")
    Place.out.buffer.flush()
    Place.mark = Place.other


def say(line):
    """Writes a line of words."""
    write(line.encode(errors="surrogateescape").decode("latin-1"))


def network_wants():
    """Takes the tokens of a network one by one, and tells what is wanted in the place of the next."""
    while True:
        section = yield "a section: NODES, LINKS, DEMANDS, META or ADMISSIBLE_PATHS"
        if section not in SECTIONS or (yield f"the bracket that opens {section}") != "(":
            return
        yield from {"NODES": node_wants, "LINKS": link_wants, "DEMANDS": demand_wants}.get(section, lambda: any_wants(section))()


def any_wants(section):
    depth = 1
    while depth:
        depth += {"(": 1, ")": -1}.get((yield f"the bracket that closes {section}"), 0)


def node_wants():
    name = yield "the name of a node, or the bracket that closes NODES"
    while name != ")":
        word = yield f"the coordinates of node {name} in brackets, the name of the next node, or the bracket that closes NODES"
        if word == "(":
            yield f"the first coordinate of node {name}"
            yield f"the second coordinate of node {name}"
            yield f"the bracket behind the two coordinates of node {name}"
            word = yield "the name of a node, or the bracket that closes NODES"
        name = word


def ends_wants(whose):
    yield f"the bracket before the ends of {whose}"
    yield f"the source of {whose}, the name of a node"
    yield f"the target of {whose}, the name of a node"
    yield f"the bracket behind the two ends of {whose}"


def link_wants():
    while (name := (yield "the name of a link, or the bracket that closes LINKS")) != ")":
        yield from ends_wants(f"link {name}")
        for field in LINK:
            yield f"the {field} of link {name}, a number"
        yield f"the bracket before the modules of link {name}"
        while (yield f"the capacity of a module of link {name}, or the bracket behind its modules") != ")":
            yield f"the cost of this module of link {name}"


def demand_wants():
    while (name := (yield "the name of a demand, or the bracket that closes DEMANDS")) != ")":
        yield from ends_wants(f"demand {name}")
        for field in DEMAND:
            yield f"the {field} of demand {name}"


def model_wants():
    keys = model_keys()
    while True:
        key = yield f"a key that is wanting: {', '.join(keys)}"
        if key not in keys:
            return
        yield f"the `=` behind {key}"
        yield f"a value of {key}: {', '.join(keys.pop(key))}"


def model_keys():
    """The keys of a model text and their spellings, as docs/FORMATS.md lists them."""
    with open(next(it for it in PAGES if os.path.exists(it)), encoding="utf-8") as file:
        rows = re.findall(r"(?m)^\| `([A-Z_]+_MODEL)` \|(.*)$", file.read())
    return {key: re.findall(r"`([A-Z_]+)`", rest) for key, rest in rows}


def show_record(network, section, number):
    """The line of a link or a demand, counted from 0 in the order of the file."""
    ends = f"the name of a {section}, or the bracket"
    places = [place for place, want, word in network.wants() if want.startswith(ends) and word not in (")", "")]
    network.show(places[number], f"{network.path}, ")


def tell_first_line(text):
    """What stands in the place of the first line, where that is known."""
    other = "model" if text.kind == "network" else "network"
    known = [
        ("\xef\xbb\xbf", "A byte order mark stands before the first line, three bytes that editors do not show: save it as UTF-8 without a mark."),
        ("\xff\xfe", "This is UTF-16: save it as UTF-8 without a mark."),
        ("\xfe\xff", "This is UTF-16: save it as UTF-8 without a mark."),
        ("\x1f\x8b", "This is a packed file: unpack it with gzip -d."),
        ("PK\x03\x04", "This is a packed file: unpack it with unzip."),
        ("SNDPLAN ", "This is a plan: is the order of the names NET MODEL PLAN?"),
        ("usage: ", "A fault line was written here in the place of a text."),
        (HEADER.format(other), f"This is a {other} text: are the two names swapped?"),
        ("?SNDlib native format; type: solution", "This is a solution text, which is not read."),
    ]
    start = text.bytes.lstrip("\xef\xbb\xbf \t\r\n")
    if not text.bytes:
        say("The file is empty.")
    elif start[:1] == "<":
        say("This is XML: take the native file of the same problem.")
    for begins, what in known:
        if text.bytes.startswith(begins):
            say(what)
    say(f"The first line of a {text.kind} text is `{HEADER.format(text.kind)}`, and nothing stands before it or in it. Here it is:")


def tell_spelling(text, rule, at, why):
    """What a text that is not spelt by its grammar was to have at a place."""
    word, want = text.word(at), text.wanted(at)
    if rule == "1":
        tell_first_line(text)
    elif rule == "2":
        say(f"Wanted: {want or 'another kind of token'}. Here stands {f'`{word}`' if word else 'the end of the text'}.")
    elif rule == "3":
        reasons = {"1": "is no such number: digits with at most one point, no comma, no sign", "2": "has more places behind the point than the field has", "3": "is 10^12 or more"}
        say(f"Wanted: {want or 'a number'}. `{word}` {reasons.get(why, 'is none')}.")
    elif rule == "4":
        say(f"`{word}` stands there for the second time: wanted was {want or 'another name'}.")
    elif rule == "5":
        nodes = [it for place, want, it in text.wants() if "the name of the next node" in want or want.startswith("the name of a node")]
        near = difflib.get_close_matches(word, nodes, 3, 0.5) + [it for it in nodes if it.lower() == word.lower()]
        near = f" Near: {', '.join(sorted(set(near)))}." if near else ""
        say(f"Wanted: {want or 'the name of a node'}. No node is named `{word}`.{near}")
    elif rule == "6":
        say(f"The text ends too soon. Wanted: {want or 'more'}.")
    elif rule == "7":
        say(f"A name has at most 64 bytes, and this one has {len(word)}.")
    else:
        say(f"The byte {ord(text.bytes[at])} may stand in comments alone.")
    text.show(at, f"{text.path}, ")


def tell_plan_text(text, rule, at):
    """What line of a plan text cannot stand, or is wanting."""
    before = [line.split(" ")[0] for line in text.bytes[:at].split("\n")[:-1]]
    last = before[-1] if before else ""
    order = ["SNDPLAN", "SIZE", "STATUS", "BUDGET", "EXAMINED", "COST"]
    following = order[order.index(last) + 1] if last in order[:-1] else None
    want = "`SNDPLAN 1`, `SNDPLAN 2` or `SNDPLAN 3`" if not last else f"a line {following}" if following else "the next line by docs/FORMATS.md, \"Plan texts\""
    say(f"{'The text ends too soon' if rule == '2' else 'This line cannot stand there'}. Wanted: {want}. Hand plans on as they were written.")
    text.show(at, f"{text.path}, ")


def tell_record(plan, index):
    """The line of a record of a plan, and in a text of version 2 or 3 the line of the prices that it names."""
    lines = plan.bytes.split("\n")
    tree = next((n for n, line in enumerate(lines) if line.startswith("TREE ")), None)
    if tree is None or not 0 <= index < len(lines) - tree - 1 or lines[tree + 1 + index].split(" ")[0] not in RECORD:
        raise LookupError(f"{plan.path} has no record {index}")
    words = lines[tree + 1 + index].split(" ")
    say(f"record {index}, line {tree + 2 + index} of {plan.path}:")
    write(short(lines[tree + 1 + index]))
    if words[0] in ("PRICED", "CROWD", "OPEN") and lines[0] != "SNDPLAN 1":
        prices = next(n for n, line in enumerate(lines) if line.startswith("PRICES "))
        number = int(words[1])
        say(f"its prices, list {number}, line {prices + 2 + number}:")
        write(short(lines[prices + 1 + number]))


def short(line):
    return line if len(line) <= WIDTH else f"{line[:WIDTH]} .. ({len(line.split(' ')) - len(line[:WIDTH].split(' '))} further words)"


def tell_rejected(words, plan):
    """Which rule a plan breaks, and the record where it does."""
    rule, rest = words[1], words[2:]
    if rule in REJECTED:
        say(f"The plan is not valid: {REJECTED[rule].format(*rest)}.")
    elif rule == "1":
        say(f"The plan is not valid: {DESIGN[rest[0]]}.")
    elif rule == "7" and plan and plan.bytes.split("TREE ", 1)[1].split("\n", 1)[0] == rest[0]:
        say("The plan is not valid: it is undecided, and no leaf is open.")
    elif rule == "7":
        say("The plan is not valid: its status does not allow a leaf of this kind, or not without a cost.")
    if rule in ("3", "4", "7") and plan:
        tell_broken(plan, rest)


def tell_broken(plan, rest):
    """The record of a broken rule, and the rule where it has a number."""
    lines = plan.bytes.split("\n")
    tree = next(n for n, line in enumerate(lines) if line.startswith("TREE "))
    kind = lines[tree + 1 + int(rest[0])].split(" ")[0] if int(rest[0]) < len(lines) - tree - 2 else ""
    if len(rest) > 1 and kind in RECORD:
        say(f"The plan is not valid: of a {kind} record has to hold: {RECORD[kind].split('; ')[int(rest[1]) - 1]}.")
    if kind in RECORD:
        tell_record(plan, int(rest[0]))


def why_unread(path):
    """Why a file cannot be read."""
    why = "it can be read now"
    try:
        with open(path, "rb") as file:
            file.read(1)
    except OSError as fault:
        why = (fault.strerror or "cannot be read").lower().replace("is a directory", "is a folder").replace("no such file or directory", "no such file")
    except ValueError:
        why = "no such file"
    more = "; `-` is not a file, /dev/stdin is" if path == "-" else ""
    return f"{path or 'a name that is empty'}: {why}{more}"


def status_of(line):
    """The status of a run that wrote this line, if it is a fault line."""
    starts = {"usage: ": 2, "bad text ": 3, "unsupported ": 4, "over limit ": 5, "read fault ": 6, "REJECTED ": 12}
    return next((status for start, status in starts.items() if line.startswith(start)), 0)


def tell_fault(line, paths):
    """Tells a fault line in words. Gives whether it is one."""
    words = line.split()
    kinds = dict(zip(("network", "model", "plan"), paths))
    text = lambda kind: Text(kinds[kind], kind)
    if words[:2] == ["bad", "text"] and words[2] == "loop":
        say(f"{words[3].capitalize()} {words[4]}, counted from 0, has equal ends:")
        show_record(text("network"), words[3], int(words[4]))
    elif words[:3] == ["bad", "text", "plan"] and "plan" in kinds:
        tell_plan_text(text("plan"), words[3], int(words[4]))
    elif words[:2] == ["bad", "text"] and words[2] in kinds and words[2] != "plan":
        tell_spelling(text(words[2]), words[3], int(words[4]), (words[5:] or [""])[0])
    elif words[:2] == ["over", "limit"] and words[2] in ("1", "2"):
        say(f"The {words[3]} text is too long: docs/FORMATS.md, \"Limits\", {words[2]}.")
    elif words[:2] == ["over", "limit"] and words[2] in ("6", "8", "9"):
        say(f"Link {words[3]}, counted from 0: {LIMITS[words[2]]}:")
        show_record(text("network"), "link", int(words[3]))
    elif words[:2] == ["over", "limit"]:
        say(LIMITS[words[2]].capitalize() + "." if words[2] == "7" else f"There are {words[3]} {LIMITS[words[2]]}.")
    elif words[:1] == ["unsupported"]:
        say(f"This value of {words[1]} is not planned with these texts: docs/FORMATS.md, \"Model texts\".")
        model = text("model")
        model.show(next(place for place, word in model.tokens if word == words[1]), f"{model.path}, ")
    elif words[:2] == ["read", "fault"]:
        say(why_unread(kinds.get(words[2], words[2])))
    elif words[:1] == ["REJECTED"]:
        tell_rejected(words, text("plan") if "plan" in kinds else None)
    else:
        return False
    return True


