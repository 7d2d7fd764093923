#!/usr/bin/env python3
"""What the programs are called with: one table, from which help texts, man pages and completion for bash are made.

usage: bin/command_help.py help [PROGRAM [COMMAND]]     the help text, of all commands or of one
       bin/command_help.py man PROGRAM                  a man page, for man(1)
       bin/command_help.py completion                   completion of the four programs for bash
"""
import sys
import textwrap

VERSION = "0.1.0"
PLAN_VERSIONS = "plan texts: reads versions 1, 2 and 3, writes 2 and 3"
WIDTH = 78
HELP = ("--help", "-h", "help")

STATUSES = [
    (0, "success: the plan made is optimal, the plan verified is valid"),
    (2, "the words spell no command"),
    (3, "a text does not follow its grammar"),
    (4, "the model asks for what is not planned"),
    (5, "a quantity is above its limit"),
    (6, "a file could not be read"),
    (7, "standard output could not be written"),
    (8, "out of memory"),
    (10, "no feasible design exists; the plan is written all the same"),
    (11, "the budget is spent; the plan has a bound, and a design if one was found"),
    (12, "the plan is not valid for this network and model"),
]

NAMES = {
    "NET": "a network in SNDlib's native format, such as examples/ring.network",
    "MODEL": "a model text, such as examples/single-path.model",
    "PLAN": "a plan text, as `sndplan plan` writes it",
    "NUMBER": "what the network is drawn from, 0 to 2,147,483,647",
    "NODES": "how many nodes it has, 4 to 64",
    "DEMANDS": "how many demands it has, 0 to 4,096",
}
RANGES = {"NUMBER": (0, 2147483647), "NODES": (4, 64), "DEMANDS": (0, 4096)}


class Option:
    """An option that takes a value (or none), with its range if it is a number."""

    def __init__(self, metavar, what, least=None, most=None):
        self.metavar, self.what, self.least, self.most = metavar, what, least, most

    def is_of_script(self):
        """Whether a script does it, and the proved program does not know it."""
        return not self.metavar


class Command:
    """A command, or a program without commands: its names, its options, what it does, and an example."""

    def __init__(self, names, what, more, example, options=None, statuses=(0, 2, 3, 4, 5, 6, 7, 8)):
        self.names, self.what, self.more, self.example = names.split(), what, more, example
        self.options, self.statuses = options or {}, statuses

    def words(self):
        """What stands behind the command's own word."""
        return " ".join([*self.names, *(f"[{name}{' ' * bool(it.metavar)}{it.metavar}]" for name, it in self.options.items())])


SNDPLAN = {
    "plan": Command(
        "NET MODEL",
        "plans a network, and writes the plan with its proof",
        "The plan goes to standard output when the search ends; Ctrl-C before that writes nothing. If standard error is a "
        "terminal, it shows how far the search is, and at the end what came of it.",
        "sndplan plan examples/ring.network examples/single-path.model > ring.plan",
        {
            "--workers": Option("N", "how many workers search, 1 to 64; 4 by default; one gives the same plan at each run", 1, 64),
            "--nodes": Option("B", "how many nodes of the tree they examine at most, 1 to 4,096; 1,000 by default", 1, 4096),
        },
        (0, 10, 11, 2, 3, 4, 5, 6, 7, 8),
    ),
    "verify": Command(
        "NET MODEL PLAN",
        "tells whether a plan is valid, and what it claims",
        "It writes one line: `ACCEPTED` with the status and the cost of the plan, or `REJECTED` with the rule that it breaks.",
        "sndplan verify examples/ring.network examples/single-path.model examples/ring.plan",
        statuses=(0, 12, 2, 3, 4, 5, 6, 7, 8),
    ),
    "report": Command(
        "NET MODEL PLAN",
        "writes a valid plan with the names of the network",
        "`sndtable` also has the ends of links, use, bound and gap.",
        "sndplan report examples/ring.network examples/single-path.model examples/ring.plan",
        statuses=(0, 12, 2, 3, 4, 5, 6, 7, 8),
    ),
    "check": Command(
        "NET MODEL",
        "tells the sizes of a network, if `plan` would not refuse it",
        "What `plan` reads and does not count, such as setup costs, is told on standard error.",
        "sndplan check examples/coast.network examples/single-path.model",
    ),
    "sample": Command("NUMBER NODES DEMANDS", "writes a generated network", "The same words write the same network.", "sndplan sample 7 6 3 > sample.network", statuses=(0, 2, 7, 8)),
    "trial": Command(
        "NUMBER NODES DEMANDS",
        "plans such a network, and tells in a line what the plan claims",
        "It plans with one worker and 1,000 nodes, under examples/single-path.model.",
        "sndplan trial 7 6 3",
        statuses=(0, 10, 11, 2, 7, 8),
    ),
    "upgrade": Command("PLAN", "writes a plan text of any version as `plan` would write it", "It does not test whether the plan is valid.", "sndplan upgrade old.plan > new.plan", statuses=(0, 2, 3, 5, 6, 7, 8)),
}

OF_PLAN = (0, 12, 2, 3, 4, 5, 6, 7, 8)
PROGRAMS = {
    "sndplan": ("plans networks, and proves what it says of a plan", SNDPLAN),
    "sndverify": (
        "tells whether a plan is valid",
        Command("NET MODEL PLAN", "tells whether a plan is valid, and what it claims", "It gives the status and the line of `sndplan verify`. No crate below it searches.", "sndverify examples/ring.network examples/single-path.model examples/ring.plan", statuses=OF_PLAN),
    ),
    "sndtable": (
        "writes the tables of a plan",
        Command(
            "NET MODEL PLAN",
            "writes cost, bound, gap, links and demands of a valid plan",
            "It writes comma-separated values, which are proved to be those of the plan. A script makes the two other forms from them.",
            "sndtable examples/ring.network examples/single-path.model examples/ring.plan --text",
            {"--text": Option("", "aligned columns, for reading"), "--json": Option("", "a JSON object, such as for jq")},
            OF_PLAN,
        ),
    ),
    "sndpicture": (
        "draws a plan",
        Command(
            "NET MODEL PLAN",
            "draws a valid plan as an SVG text",
            "The links have their loads and capacities.",
            "sndpicture examples/ring.network examples/single-path.model examples/ring.plan > ring.svg",
            {"--demand": Option("NAME", "highlights the path of this demand")},
            OF_PLAN,
        ),
    ),
}
VARIABLE = (
    "SNDPLAN_WORDS",
    "`none`: standard error stays empty, without progress. `all`: `plan` tells at its end what came of it, even if standard error "
    "is no terminal. Otherwise faults are explained there, and a terminal also shows progress and end.",
)
SEE = "docs/USING.md and docs/FORMATS.md of the sources tell more."


def commands(program):
    """The commands of a program, by their words; a program without commands has the one of no word."""
    what = PROGRAMS[program][1]
    return what if isinstance(what, dict) else {"": what}


def folded(text, first="", other=""):
    return textwrap.wrap(text, WIDTH, initial_indent=first, subsequent_indent=other, break_long_words=False, break_on_hyphens=False)


def called(program, command):
    """How a command is called."""
    return " ".join(it for it in (program, command, commands(program)[command].words()) if it)


def usage_of(program):
    """The line that the program itself writes where its words are not read."""
    every = []
    for command, it in commands(program).items():
        options = [f"[{name} {o.metavar}]" for name, o in it.options.items() if not o.is_of_script()]
        every.append(" ".join([*([command] if command else []), *it.names, *options]))
    return f"usage: {program} {' | '.join(every)}\n"


def listed(rows):
    """Rows of a word and what it means."""
    width = max(len(word) for word, _ in rows)
    return [line for word, what in rows for line in folded(what, f"  {word:{width}}  ", " " * (width + 4))]


def words_of(it):
    return [(name, NAMES[name]) for name in it.names] + [(f"{name} {o.metavar}".strip(), o.what) for name, o in it.options.items()]


def statuses_of(it):
    return [(str(number), what) for number, what in STATUSES if number in it.statuses]


def help_of_command(program, command):
    """The help text of one command, or of a program without commands."""
    it = commands(program)[command]
    name = f"{program} {command}".strip()
    lines = [*folded(f"{name}: {it.what}"), "", *folded(called(program, command), "  ", "    "), "", *listed(words_of(it) + [("--version", "tells the version")] * (not command))]
    lines += ["", *folded(it.more), "", "It ends with a status:", *listed(statuses_of(it)), "", "Example:", f"  {it.example}"]
    return "\n".join(lines) + "\n"


def help_of_program(program):
    """The help text of a program."""
    all_of = commands(program)
    if "" in all_of:
        return help_of_command(program, "")
    lines = [*folded(f"{program} {VERSION}: {PROGRAMS[program][0]}"), ""]
    for command, it in all_of.items():
        lines += folded(called(program, command), "  ", "      ") + folded(it.what, "      ", "      ")
    lines += ["", *listed([(f"{program} COMMAND --help", "tells more of a command"), (f"{program} --version", "tells the version")]), "", "It ends with a status:"]
    lines += [*listed([(str(number), what) for number, what in STATUSES]), "", "Environment:", *listed([VARIABLE]), "", "Example:", f"  {all_of['plan'].example}", "", SEE]
    return "\n".join(lines) + "\n"


def roff(text):
    text = text.replace("\\", "\\e").replace("-", "\\-")
    return f"\\&{text}" if text[:1] in (".", "'") else text


def man_of(program):
    """The man page of a program."""
    what, all_of = PROGRAMS[program][0], commands(program)
    lines = [f'.TH {program.upper()} 1 "" "sndplan {VERSION}" "User Commands"', ".SH NAME", f"{program} \\- {roff(what)}", ".SH SYNOPSIS"]
    lines += [line for command in all_of for line in (".PP", f"\\fB{roff(' '.join([program, command]).strip())}\\fR {roff(all_of[command].words())}")]
    lines.append(".SH DESCRIPTION")
    for command, it in all_of.items():
        if command:
            lines += [f".SS {command}"]
        lines += [roff(f"{it.what[0].upper()}{it.what[1:]}. {it.more}")]
        for word, meaning in words_of(it):
            lines += [".TP", f"\\fB{roff(word)}\\fR", roff(meaning)]
        lines += [".PP", "Example:", ".PP", ".nf", f"    {roff(it.example)}", ".fi"]
    used = {number for it in all_of.values() for number in it.statuses}
    lines += [".SH EXIT STATUS", *(line for number, meaning in STATUSES if number in used for line in (".TP", f"\\fB{number}\\fR", roff(meaning)))]
    lines += [".SH ENVIRONMENT", ".TP", f"\\fB{VARIABLE[0]}\\fR", roff(VARIABLE[1]), ".SH SEE ALSO"]
    lines.append(", ".join(f"\\fB{it}\\fR(1)" for it in PROGRAMS if it != program))
    return "\n".join(lines) + "\n"


def completion():
    """Completion for bash: commands, then options, then files."""
    cases = []
    for program in PROGRAMS:
        for command, it in commands(program).items():
            if it.options or command:
                pattern = f"{program}:{command}" if command else f"{program}:*"
                cases.append(f"        {pattern}) options='{' '.join([*it.options, '--help'])}' ;;")
    names = " ".join(SNDPLAN)
    return f"""# Completion of {', '.join(PROGRAMS)} for bash, made by bin/command_help.py.
_sndplan() {{
    local word=${{COMP_WORDS[COMP_CWORD]}} program=${{COMP_WORDS[0]##*/}} options='--help --version'
    COMPREPLY=()
    if [[ $program == sndplan && $COMP_CWORD -eq 1 ]]; then
        mapfile -t COMPREPLY < <(compgen -W "{names} --help --version" -- "$word")
        return
    fi
    case $program:${{COMP_WORDS[1]}} in
{chr(10).join(cases)}
    esac
    if [[ $word == -* ]]; then
        mapfile -t COMPREPLY < <(compgen -W "$options" -- "$word")
    else
        compopt -o filenames
        mapfile -t COMPREPLY < <(compgen -f -- "$word")
    fi
}}
complete -F _sndplan {' '.join(PROGRAMS)}
"""


def main(words):
    if words[:1] == ["completion"]:
        text = completion()
    elif len(words) == 2 and words[0] == "man" and words[1] in PROGRAMS:
        text = man_of(words[1])
    elif len(words) > 2 and words[0] == "help" and words[1] in PROGRAMS and words[2] in commands(words[1]):
        text = help_of_command(*words[1:3])
    elif words[:1] == ["help"] and words[1:2] in ([], *([it] for it in PROGRAMS)):
        text = help_of_program(words[1] if words[1:] else "sndplan")
    else:
        print(__doc__, end="", file=sys.stdout if set(words) & set(HELP) else sys.stderr)
        return 0 if set(words) & set(HELP) else 2
    sys.stdout.write(text)
    return 0


if __name__ == "__main__":
    sys.exit(main(sys.argv[1:]))
