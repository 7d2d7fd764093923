"""Runs a program, and tells on standard error what its end means. For the scripts of this folder and of bin/install:

    python3 run_program.py NAME PROGRAM.. -- WORD..
    python3 run_program.py NAME -- WORD..               tests words alone, for a program that is not built yet

PROGRAM.. starts the program NAME, as a file that may have a loader before it. The program gets the words, the files and
standard output itself; its status is the script's. With words for help or the version it is not started: its usage line
and its status 2 come from here, and standard error has the text. SNDPLAN_WORDS=none keeps standard error empty.
"""
import os
import signal
import stat
import subprocess
import sys
import time

import command_help

HANDED_ON = (signal.SIGINT, signal.SIGTERM, signal.SIGHUP, signal.SIGQUIT, signal.SIGUSR1, signal.SIGUSR2)
DIE_WITH_PARENT = 1
LARGEST_NETWORK = 2_000_000


def put(text):
    """Writes to standard output. Gives the status: 7 where that fails."""
    try:
        with open(1, "wb", closefd=False) as out:
            out.write(text)
    except OSError:
        return 7
    return 0


def say(line, name):
    print(f"{name}: {line}" if line else "", file=sys.stderr, flush=True)


# ---- words


def asked(words):
    """Whether the words ask for help or the version, and which."""
    front = words[: words.index("--")] if "--" in words else words
    if words[:1] in (["--version"], ["version"]):
        return "version"
    if not words or words[0] == "help" or {"--help", "-h"} & set(front):
        return "help"
    return ""


def help_for(name, words):
    """The help text that words ask for."""
    all_of = command_help.commands(name)
    command = next((word for word in words if word in all_of), None)
    return command_help.help_of_program(name) if command is None else command_help.help_of_command(name, command)


def version_of(name, program):
    """The version, and what the program was built with: the build wrote it down."""
    built = "not built yet"
    if program and os.path.exists(f"{program[-1]}.built"):
        with open(f"{program[-1]}.built", encoding="utf-8", errors="replace") as file:
            built = file.read().strip() or "proved; the kit was not written down"
    return f"{name} {command_help.VERSION}\n{built}\n{command_help.PLAN_VERSIONS}\n"


class Given:
    """What words give a command: names, options, and what is wrong with them."""

    def __init__(self, it, words):
        self.names, self.options, self.faults = [], {}, []
        words, is_plain = list(words), False
        while words:
            word = words.pop(0)
            if is_plain or word[:1] != "-" or word == "-":
                self.names.append(word)
            elif word == "--":
                is_plain = True
            else:
                self.take_option(it, word, words)
        if len(self.names) < len(it.names):
            lacks = it.names[len(self.names) :]
            self.faults.append(f"{' and '.join(lacks)} {'is' if len(lacks) == 1 else 'are'} missing")
        if len(self.names) > len(it.names):
            self.faults.append(f"a word too many: `{self.names[len(it.names)]}`")
        for metavar, word in zip(it.names, self.names):
            self.test_range(metavar, word, *command_help.RANGES.get(metavar, (None, None)))

    def take_option(self, it, word, words):
        name, _, value = word.partition("=")
        if name not in it.options:
            self.faults.append(f"`{name}` is no option here{nearest(name, it.options)}")
            if "=" not in word and words and words[0].isdigit():
                words.pop(0)
            return
        option = it.options[name]
        if name in self.options:
            self.faults.append(f"{name} stands twice")
        if option.metavar and "=" not in word:
            if not words or (words[0][:1] == "-" and len(words[0]) > 1):
                self.faults.append(f"{name} {option.metavar}: the value is missing")
                return
            value = words.pop(0)
        self.options[name] = value
        self.test_range(name, value, option.least, option.most)

    def test_range(self, name, value, least, most):
        if least is None:
            return
        digits = value[1:] if value[:1] == "+" else value
        if not (digits.isascii() and digits.isdigit()):
            self.faults.append(f"{name} {value}: a whole number is wanted, {least:,} to {most:,}")
        elif not least <= int(digits) <= most:
            self.faults.append(f"{name} {value}: {least:,} to {most:,}")


def nearest(word, words):
    """Which of these may be meant."""
    import difflib

    near = difflib.get_close_matches(word, list(words), 1, 0.5)
    return f": is `{near[0]}` meant?" if near else f"; there {'are' if len(words) > 1 else 'is'} {', '.join(words)}" if words else ""


def command_of(name, words):
    """The command of the words, or none, and the words behind it."""
    all_of = command_help.commands(name)
    if "" in all_of:
        return "", words
    return (words[0], words[1:]) if words and words[0] in all_of else (None, words[1:])


def unknown_demand(given):
    """That no demand has the name of the option --demand, with the nearest of them."""
    if "--demand" not in given.options:
        return []
    import difflib
    import fault_words

    wanted = given.options["--demand"]
    try:
        text = fault_words.Text(given.names[0], "network")
        names = [word for _, want, word in text.wants() if want.startswith("the name of a demand") and word != ")"]
    except OSError:
        return []
    near = difflib.get_close_matches(wanted, names, 1, 0.4) if wanted not in names else []
    return [f"no demand is named `{wanted}`" + (f": is `{near[0]}` meant?" if near else "")] if wanted not in names else []


def wrong(name, words):
    """What is wrong with words that are not read."""
    command, rest = command_of(name, words)
    try:
        "".join(words).encode()
    except UnicodeEncodeError:
        return ["a word is not UTF-8"]
    if command is None:
        return [f"`{words[0]}` is no command{nearest(words[0], command_help.commands(name))}", f"`{name} --help` lists the commands"]
    given = Given(command_help.commands(name)[command], rest)
    faults = given.faults or unknown_demand(given)
    how = command_help.called(name, command)
    return [*faults, f"wanted: {how}", f"`{' '.join(it for it in (name, command, '--help') if it)}` tells more"]


# ---- the run


def die_with_parent():
    """Asks the system to end this process with its parent, where it can."""
    try:
        import ctypes

        ctypes.CDLL(None).prctl(DIE_WITH_PARENT, signal.SIGKILL)
    except (OSError, AttributeError, ImportError):
        pass


def start(program, words, out):
    """Starts the program in the same group of processes, with this standard output."""
    parent, child = os.getpid(), os.fork()
    if child:
        return child
    try:
        die_with_parent()
        if os.getppid() != parent:
            os._exit(1)
        for name in ("SIGPIPE", "SIGXFSZ"):
            signal.signal(getattr(signal, name), signal.SIG_DFL)
        if out is not None:
            os.dup2(out, 1)
        os.execv(program[0], [*program, *words])
    except OSError as fault:
        print(f"{program[0]}: {fault.strerror}", file=sys.stderr, flush=True)
    os._exit(127)


def run(program, words, out=None):
    """Runs the program. Gives its status, a signal below 0, and the seconds that it took."""
    began = time.monotonic()
    child = start(program, words, out)
    for number in HANDED_ON:
        if signal.getsignal(number) is not signal.SIG_IGN:
            signal.signal(number, lambda it, _: os.kill(child, it))
    _, status = os.waitpid(child, 0)
    for number in HANDED_ON:
        if signal.getsignal(number) is not signal.SIG_IGN:
            signal.signal(number, signal.SIG_DFL)
    return os.waitstatus_to_exitcode(status), time.monotonic() - began


def end(status):
    """Ends as the program ended."""
    sys.stderr.flush()
    if status < 0:
        signal.signal(-status, signal.SIG_DFL)
        os.kill(os.getpid(), -status)
    os._exit(status)


# ---- what an end means


def line_again(name, program, words, command):
    """The line of a refused run, by a run that ends with the same one: only over files, which can be read again."""
    it = command_help.commands(name)[command]
    names = Given(it, words).names
    if any(path.startswith(("/dev/", "/proc/")) or (os.path.exists(path) and not os.path.isfile(path) and not os.path.isdir(path)) for path in names):
        return "", names
    if command == "plan":
        command, words = "check", ["--", *names]
    ran = subprocess.run([*program, *([command] if command else []), *words], stdin=subprocess.DEVNULL, stdout=subprocess.PIPE, stderr=subprocess.DEVNULL, check=False)
    return ran.stdout.decode("latin-1") if len(ran.stdout) < 1000 else "", names


def tell_fault(name, program, words, command):
    """A refusal or a rejection in words."""
    import fault_words

    line, names = line_again(name, program, words, command)
    place = fault_words.Place
    place.out, place.mark, place.other = sys.stderr, f"{name}: ", "  "
    try:
        fault_words.tell_fault(line, ["", "", *names] if command == "upgrade" else names)
    except (OSError, LookupError, ValueError, StopIteration):
        pass


def out_fault():
    """Why standard output cannot be written."""
    import fcntl

    try:
        kind, access = os.fstat(1).st_mode, fcntl.fcntl(1, fcntl.F_GETFL) & os.O_ACCMODE
    except OSError:
        return "it is closed"
    if access == os.O_RDONLY:
        return "it is open for reading alone"
    return "nobody reads it any more" if stat.S_ISFIFO(kind) or stat.S_ISSOCK(kind) else "the disk is full"


def head_of_plan(text):
    """Status, cost, bound, nodes and budget of a plan text."""
    found = {}
    for line in text.split(b"\n"):
        word, _, rest = line.partition(b" ")
        if word in (b"STATUS", b"COST", b"BOUND", b"EXAMINED", b"BUDGET"):
            found[word.decode()] = rest.decode()
        elif word in (b"PRICES", b"CUTS", b"TREE"):
            break
    return found


def gap_of(cost, bound):
    """The gap in per cent, rounded up to a tenth, as words."""
    from fractions import Fraction

    if "none" in (cost, bound) or Fraction(cost) == 0 or Fraction(bound) < 0:
        return ""
    tenths = -(-1000 * (Fraction(cost) - Fraction(bound)) // Fraction(cost))
    return f", gap {tenths // 10}.{tenths % 10} %"


def end_of_plan(status, seconds, text):
    """What came of a plan, and what to do next, in a line."""
    said = head_of_plan(text)
    took = f"{seconds:.1f} s"
    if not said:
        return {0: "optimal", 10: "infeasible: no design exists", 11: "undecided: the budget is spent"}[status] + f", {took}"
    nodes = f"nodes {said['EXAMINED']} of {said['BUDGET']}, {took}"
    cost, bound = said["COST"], said.get("BOUND", "none")
    if status == 0:
        return f"optimal: cost {cost}, {nodes}. No design is cheaper; next: sndtable shows it"
    if status == 10:
        return f"infeasible: no design exists, {nodes}. Next: sndtable tells why"
    what = "no design yet" if cost == "none" else f"cost {cost}"
    more = "a larger --nodes" if int(said["BUDGET"]) < 4096 else "other --workers"
    return f"undecided: {what}, bound {bound}{gap_of(cost, bound)}, {nodes}. Next: sndtable shows it; {more} may close the gap"


def ignored(network, model):
    """What the texts of a network and a model have and a plan does not count, with how often it is not 0."""
    import fault_words

    if os.path.getsize(network) > LARGEST_NETWORK:
        return []
    keys = [word for _, word in fault_words.Text(model, "model").tokens]
    has_hops = any(keys[at] == "HOP_LIMIT_MODEL" and keys[at + 2] in ("YES", "INDIVIDUAL", "INDIVIDUAL_HOP_LIMITS") for at in range(len(keys) - 2))
    counts = {"setup cost": 0, "cost of installed capacity": 0, "hop limit": 0, "admissible path": 0}
    starts = [("the setup cost of", "setup cost"), ("the cost of the pre-installed capacity of", "cost of installed capacity"), ("the hop limit", "hop limit")]
    depth = 0
    for _, want, word in fault_words.Text(network, "network").wants():
        for begins, what in starts:
            if want.startswith(begins) and word != "UNLIMITED" and word.strip("0.") and not (what == "hop limit" and has_hops):
                counts[what] += 1
        # The bracket of a demand, and within it that of each of its paths.
        depth = depth + {"(": 1, ")": -1}.get(word, 0) if want == "the bracket that closes ADMISSIBLE_PATHS" else 0
        counts["admissible path"] += word == "(" and depth == 2
    why = {"hop limit": ": the model's HOP_LIMIT_MODEL is NO", "admissible path": ": every simple path is allowed"}
    return [f"{count} {what.replace('cost', 'costs', 1) if count > 1 and 'cost' in what else what + 's' * (count > 1)}{why.get(what, '')}" for what, count in counts.items() if count]


def tell_ignored(name, names):
    try:
        told = ignored(*names[:2])
    except (OSError, LookupError, ValueError):
        told = []
    if told:
        say("read and not counted:", name)
        for line in told:
            print(f"  {line}", file=sys.stderr, flush=True)


def tell(name, program, words, status, seconds, text, is_watched):
    """Tells what the end of a run means."""
    command, rest = command_of(name, words)
    if status == 2:
        for line in wrong(name, words):
            say(line, name)
    elif status in (3, 4, 5, 6, 12) and command is not None:
        tell_fault(name, program, rest, command)
    elif status == 7:
        say(f"standard output could not be written: {out_fault()}", name)
    elif status == 8:
        say("out of memory: nothing was written", name)
    elif status == 0 and command == "check":
        tell_ignored(name, Given(command_help.commands(name)[command], rest).names)
    elif status in (0, 10, 11) and command == "plan" and is_watched:
        say(end_of_plan(status, seconds, text), name)
    elif status == -signal.SIGINT and command == "plan":
        say("interrupted: nothing was written", name)


# ---- a plan's end


def output_start():
    """Where standard output begins to be written, if it is a file."""
    try:
        its = os.fstat(1)
        if not stat.S_ISREG(its.st_mode):
            return None
        import fcntl

        return its.st_size if fcntl.fcntl(1, fcntl.F_GETFL) & os.O_APPEND else os.lseek(1, 0, os.SEEK_CUR)
    except OSError:
        return None


def output_since(at):
    """What was written to standard output, a file, since then."""
    try:
        with open("/proc/self/fd/1", "rb") as file:
            file.seek(at)
            return file.read()
    except OSError:
        return b""


def run_plan(program, words):
    """Runs `plan` and gives what it wrote as well, where that can be had: of a file, and of a terminal."""
    at = output_start()
    if at is not None:
        status, seconds = run(program, words)
        return status, seconds, output_since(at)
    if not os.isatty(1) or not hasattr(os, "memfd_create"):
        return *run(program, words), b""
    out = os.memfd_create("plan")
    status, seconds = run(program, words, out)
    with open(out, "rb") as file:
        file.seek(0)
        text = file.read()
    return put(text) or status, seconds, text


def run_form(name, program, words, form):
    """The tables of a plan in another form than the program writes."""
    rest = [word for word in words if word != form]
    ran = subprocess.run([*program, *rest], stdout=subprocess.PIPE, check=False)
    text = ran.stdout
    if ran.returncode == 0:
        import table_forms

        text = table_forms.json_of(text) if form == "--json" else table_forms.text_of(text)
    return put(text) or ran.returncode, rest


def form_of(name, words):
    """The form of tables that the words ask for."""
    front = words[: words.index("--")] if "--" in words else words
    forms = [word for word in front if word in ("--text", "--json")]
    return forms[0] if name == "sndtable" and len(forms) == 1 else ""


def faults_of(name, words):
    """What is wrong with words before the program is asked, as the program would find it."""
    command, rest = command_of(name, words)
    if command is None or Given(command_help.commands(name)[command], rest).faults:
        return wrong(name, words)
    return []


def test_words(name, words):
    """Refuses words that no program takes, as it would. Gives its status, or 0."""
    faults = faults_of(name, words)
    if not faults:
        return 0
    status = put(command_help.usage_of(name).encode()) or 2
    for line in faults:
        say(line, name)
    return status


def main(argv):
    name, rest = argv[0], argv[1:]
    program, words = rest[: rest.index("--")], rest[rest.index("--") + 1 :]
    level, what = os.environ.get("SNDPLAN_WORDS", ""), asked(words)
    if level == "none":
        os.dup2(os.open(os.devnull, os.O_WRONLY), 2)
    if what:
        status = put(command_help.usage_of(name).encode()) or 2
        print(help_for(name, words) if what == "help" else version_of(name, program), end="", file=sys.stderr, flush=True)
        return status
    if not program:
        return test_words(name, words)
    is_watched = level == "all" or (level != "none" and os.isatty(2))
    form, text, seconds = form_of(name, words), b"", 0.0
    if form:
        status, words = run_form(name, program, words, form)
    elif name == "sndplan" and words[0] == "plan" and is_watched:
        status, seconds, text = run_plan(program, words)
    else:
        status, seconds = run(program, words)
    if level != "none":
        tell(name, program, words, status, seconds, text, is_watched)
    end(status)
    return 0


if __name__ == "__main__":
    try:
        sys.exit(main(sys.argv[1:]))
    except BrokenPipeError:
        os._exit(7)
