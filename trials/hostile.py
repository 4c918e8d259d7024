"""What trials/fuzz, trials/refused-growth and trials/outside share: the commands, a run with its time and memory, what a run may end with, and small inputs.

A run that ends as the pages say it may is no finding. `faults_of` lists what else there is: a signal, a status or a line that no page has, a place
behind the text, output that shouldn't stand, or one that ends inside a piece. A new command is a row of COMMANDS and one of SMALL, a new option a word in
its command's row; `untabled` names what docs/commands/README.md has and COMMANDS hasn't.
"""
import os
import pathlib
import re
import signal
import subprocess
import tempfile
import time
from dataclasses import dataclass, field

TOP = pathlib.Path(__file__).resolve().parent.parent
PROGRAM = TOP / "crates" / "gfan_main" / "out" / "gfan_main"
MOST_MEMORY = 1 << 20  # kilobytes that a small input may take

WHOLE = rb"-?[0-9]+"
FRACTION = WHOLE + rb"(?:/[0-9]+)?"
POWER = rb"[A-Za-z][A-Za-z0-9_]*(?:\^[0-9]+)?"
MONOMIAL = rb"(?:1|" + POWER + rb"(?:\*" + POWER + rb")*)"
POLYNOMIAL = rb"[-+*/^A-Za-z0-9_]+"
VECTOR = rb"\(" + WHOLE + rb"(?:," + WHOLE + rb")*\)"

# of each refusal with a number: the status, and what its line says behind the number
LINES = {
    1: (5, rb"read failed"),
    2: (6, rb"write failed"),
    3: (5, rb"open failed"),
    4: (3, rb"vector overflow: " + WHOLE + rb" [-+*] " + WHOLE),
    5: (3, rb"overflow: " + FRACTION + rb" [-+*/] " + FRACTION),
    6: (3, rb"exponent overflow: [0-9]+ \+ [0-9]+"),
    7: (1, rb"no term order: weight [0-9]+"),
    8: (1, rb"syntax at byte [0-9]+: (?:ended|unexpected|repeated name|zero denominator)"),
    9: (1, rb"number too wide at byte [0-9]+"),
    10: (1, rb"unknown name at byte [0-9]+"),
    11: (1, rb"too many variables: [0-9]+"),
    12: (1, rb"input too long"),
    13: (4, rb"pair budget: [0-9]+ polynomials, [0-9]+ pairs unsettled"),
    14: (1, rb"not reduced: set [0-9]+ polynomial [0-9]+ term " + MONOMIAL),
    15: (1, rb"no basis: set [0-9]+ polynomials [0-9]+ and [0-9]+ leave " + POLYNOMIAL),
    16: (1, rb"inconsistent marking: set [0-9]+ multipliers " + VECTOR),
    17: (3, rb"cone overflow: row [0-9]+: " + WHOLE + rb" [-+*] " + WHOLE),
    18: (1, rb"no fan: cones [0-9]+ and [0-9]+"),
    19: (1, rb"missing section (?:AMBIENT_DIM|RAYS|LINEALITY_SPACE|MAXIMAL_CONES|MAXIMAL_INTERIORS)"),
    20: (1, rb"bad ray [0-9]+"),
    21: (1, rb"dimension [0-9]+ where [0-9]+ is needed"),
    22: (1, rb"zero polynomial: set [0-9]+ polynomial [0-9]+"),
    23: (2, rb"usage: gfan _COMMAND \[OPTIONS\]"),
    24: (4, rb"list limit: [0-9]+ written"),
    25: (1, rb"not homogeneous: polynomial [0-9]+: " + MONOMIAL + rb" and " + MONOMIAL),
    26: (1, rb"no region: multipliers " + VECTOR),
    27: (3, rb"root weight too wide: entry [0-9]+ is " + WHOLE),
    28: (1, rb"bad certificate: cone [0-9]+"),
    29: (1, rb"bad file version [0-9]+"),
    30: (1, rb"other ring: name [0-9]+"),
    31: (1, rb"not listed: side [01] polynomial [0-9]+ leaves " + POLYNOMIAL),
}

# what _bases has written when it stops: the ring, and pieces that end behind a basis and its certificates
RING = rb"Q\[[A-Za-z0-9_,]+\]\n"
VECTORS = rb"\{(?:\{[-0-9,()]*\}(?:,\n\{[-0-9,()]*\})*)?\}"
CERTIFICATES = rb"(?:\n\([0-9,]+\)\n" + VECTORS + rb")?"
PIECES = re.compile(RING + rb"\{\{\n[^{}]*\}" + CERTIFICATES + rb"(?:\n,\n\{\n[^{}]*\}" + CERTIFICATES + rb")*")
# and _interactive: the ring with a prompt, and then prompts and answers
PROMPT = rb"\{\n[^{}]*\}\n(?:[0-9]+ " + VECTOR + rb"\n)*history [0-9]+\n"
SESSION = re.compile(RING + PROMPT + rb"(?:" + PROMPT + rb"|no such facet\n|nothing to undo\n|not understood\n)*")
WHOLE_PIECES = {"_bases": PIECES, "_interactive": SESSION}


@dataclass
class Option:
    """A word behind a command, with what follows it: nothing, N for a number, or the items of a file. The words K and FILE stand for a number and for the
    name of a file by themselves."""

    word: str
    value: str
    is_needed: bool


@dataclass
class Command:
    """A command with its options, and the items that it reads: of itself, and with an option."""

    name: str
    usage: str
    reads: str
    instead: dict = field(default_factory=dict)

    def options(self):
        """The options of a usage in which those stand in brackets that may be left out, and @ITEM+ITEM for a file of such items."""
        for bracket, word, value in re.findall(r"(\[?)(-{1,2}[a-z0-9]+|K\b|FILE\b)(?: (N|@[a-z+]+))?\]?", self.usage):
            yield Option(word, value, not bracket)

    def items(self, words):
        """The items that the command with these words reads."""
        for option, reads in self.instead.items():
            if option in words:
                return reads.split()
        return self.reads.split()


COMMANDS = [
    Command("_bases", "[-g] [--limit N] [--pairs N] [--certificates] [--workers N] [--within @vectors] [--after @ring+basis]", "ring set"),
    Command("_buchberger", "[-w] [-r] [--pairs N]", "ring set", {"-w": "ring set weight"}),
    Command("_doesidealcontain", "", "ring set set"),
    Command("_fancommonrefinement", "--i1 @fan --i2 @fan", ""),
    Command("_generated", "K [--limit N] [--pairs N] [--workers N]", ""),
    Command("_groebnercone", "[--vectorinput] [--certificates] [--restrict] [--asfan]", "ring set", {"--vectorinput": "dimension vectors vectors"}),
    Command("_homogeneityspace", "", "ring set"),
    Command("_homogenize", "", "ring set name"),
    Command("_initialforms", "", "ring set vector"),
    Command("_interactive", "FILE @ring+basis [--pairs N]", "choices"),
    Command("_ismarkedgroebnerbasis", "", "ring set"),
    Command("_leadingterms", "[-m]", "ring set", {"-m": "ring sets"}),
    Command("_markpolynomialset", "", "ring set vector"),
    Command("_migratefan", "", "fan"),
    Command("_minkowskisum", "", "ring set"),
    Command("_polynomialsetunion", "", "ring sets"),
    Command("_saturation", "[--pairs N]", "ring set"),
    Command("_stats", "", "ring sets"),
    Command("_topolyhedralfan", "[--restrict]", "ring sets"),
    Command("_tropicalhypersurface", "", "ring one"),
    Command("_tropicalintersection", "[--basistest]", "ring set"),
    Command("_weightvector", "[-m] [-e]", "ring set", {"-m": "ring sets"}),
]


def untabled():
    """The commands and options of the table of docs/commands/README.md that COMMANDS hasn't."""
    known = {(command.name, option.word) for command in COMMANDS for option in command.options()} | {(command.name, "") for command in COMMANDS}
    for line in (TOP / "docs" / "commands" / "README.md").read_text().splitlines():
        found = re.match(r"\| `(_[a-z]+)((?: K| FILE)?)`((?: `[^`]+`)*) \|", line)
        # (a word that is no command is refused in one of its rows)
        if found and (TOP / "docs" / "commands" / f"{found.group(1)}.md").exists():
            for word in ["", *found.group(2).split(), *re.findall(r"`(-{1,2}[a-z0-9]+)", found.group(3))]:
                if (found.group(1), word) not in known:
                    yield f"{found.group(1)} {word}".strip()


@dataclass
class Case:
    """Words, in which @0, @1 and so on stand for files with these texts, and what is given on standard input."""

    words: list
    input: bytes = b""
    files: list = field(default_factory=list)

    def texts(self):
        return [*self.files, self.input]


@dataclass
class Ended:
    """How a run ended: its status (negative for a signal, None where it was stopped for time), what it wrote, seconds, and kilobytes."""

    status: int
    output: bytes
    line: bytes
    seconds: float
    memory: int


class Runner:
    """Runs a program on cases, in a folder of its own."""

    def __init__(self, program=PROGRAM, limit=10.0):
        self.program = str(program)
        self.limit = limit
        self.folder = pathlib.Path(tempfile.mkdtemp(prefix="gfan-bench-"))

    def words_of(self, case):
        """The words, with the files written that they name; one that the case hasn't isn't there."""
        words = []
        for word in case.words:
            named = re.fullmatch(r"((?:-{1,2}[a-z0-9]+=)?)@([0-9])", word)
            if named:
                number = int(named.group(2))
                path = self.folder / f"file{number}"
                if number < len(case.files):
                    path.write_bytes(case.files[number])
                else:
                    path.unlink(missing_ok=True)
                word = named.group(1) + str(path)
            words.append(word)
        return words

    def run(self, case, env=None, prepare=None):
        """One run of a case. The environment is empty but for env; prepare is called in the new process."""
        stdin, stdout, stderr = (self.folder / name for name in ("input", "output", "line"))
        stdin.write_bytes(case.input)
        begun = time.monotonic()
        with open(stdin, "rb") as given, open(stdout, "wb") as written, open(stderr, "wb") as told:
            process = subprocess.Popen(
                [self.program, *self.words_of(case)], stdin=given, stdout=written, stderr=told, env=env or {}, preexec_fn=prepare
            )
        stopped = False
        try:
            status, usage = self.wait(process)
        except TimeoutError:
            process.kill()
            _, waited, usage = os.wait4(process.pid, 0)
            status, stopped = -signal.SIGKILL, True
        process.returncode = status
        return Ended(None if stopped else status, stdout.read_bytes(), stderr.read_bytes(), time.monotonic() - begun, usage.ru_maxrss)

    def wait(self, process):
        """The status of a process that ends in time, and what it took. It has so many seconds of the processor, and twenty times as many by the clock."""
        begun = time.monotonic()
        looked, pause = begun + self.limit, 0.0005
        while True:
            pid, waited, usage = os.wait4(process.pid, os.WNOHANG)
            if pid:
                return os.waitstatus_to_exitcode(waited), usage
            if time.monotonic() > looked:
                left = self.limit - processor_time(process.pid)
                if left <= 0 or time.monotonic() > begun + 20 * self.limit:
                    raise TimeoutError
                looked = time.monotonic() + max(left, 0.1)
            time.sleep(pause)
            pause = min(2 * pause, 0.02)


def processor_time(pid):
    """The seconds of the processor that a process has taken."""
    fields = pathlib.Path(f"/proc/{pid}/stat").read_text().rpartition(")")[2].split()
    return (int(fields[11]) + int(fields[12])) / os.sysconf("SC_CLK_TCK")


def number_of(line):
    """The number of a refusal's line, or None."""
    found = re.match(rb"gfan: E([0-9]+) ", line)
    return int(found.group(1)) if found else None


def faults_of_line(case, ended):
    """What is wrong with the line of a refusal."""
    if ended.status == 7:
        return [] if ended.line == b"gfan: no memory\n" else ["no memory, told in another line"]
    number = number_of(ended.line)
    if number not in LINES:
        return ["a line that no page has"]
    status, form = LINES[number]
    faults = [] if status == ended.status else [f"E{number} with status {ended.status}"]
    if not re.fullmatch(rb"gfan: E%d " % number + form + rb"\n", ended.line):
        faults.append(f"the line of E{number} is not in its form")
    place = re.search(rb"at byte ([0-9]+)(: ended)?", ended.line)
    if place:
        # (the line doesn't say in which of the texts)
        at, lengths = int(place.group(1)), [len(text) for text in case.texts()]
        if not any((at == length) if place.group(2) else (at < length) for length in lengths):
            faults.append(f"place {at} in texts of {lengths} bytes")
    return faults


def faults_of(case, ended, line_may_be_cut=False):
    """What is wrong with a run that ended, as texts; none where nothing is."""
    if ended.status is None:
        return ["not ended in time"]
    if ended.status < 0:
        return [f"signal {-ended.status}"]
    faults = [f"{ended.memory} kB of memory"] if ended.memory > MOST_MEMORY else []
    if ended.status == 0:
        if ended.line:
            faults.append("status 0 with a line")
        if not ended.output.endswith(b"\n"):
            faults.append("status 0 without the answer's last line end")
        return faults
    if not 1 <= ended.status <= 7:
        return faults + [f"status {ended.status}"]
    if not line_may_be_cut:
        faults += faults_of_line(case, ended)
    if ended.output and ended.status != 6:
        pieces = [pieces for name, pieces in WHOLE_PIECES.items() if name in case.words]
        if not pieces:
            faults.append(f"output with status {ended.status}")
        elif not any(form.fullmatch(ended.output) for form in pieces):
            faults.append("output that ends inside a piece")
    return faults


PLANE = b"AMBIENT_DIM\n2\nRAYS\n-1 0\n0 -1\n1 1\nLINEALITY_SPACE\nMAXIMAL_CONES\n{0}\n{1}\n{2}\n"
HALVES = b"AMBIENT_DIM\n2\nRAYS\n-1 1\n1 -1\nLINEALITY_SPACE\n1 1\nMAXIMAL_CONES\n{0}\n{1}\n"
QUADRANT = b"AMBIENT_DIM\n2\nRAYS\n1 0\n0 1\nLINEALITY_SPACE\nMAXIMAL_CONES\n{0 1}\n"
SPACE = b"AMBIENT_DIM\n3\nRAYS\n1 0 0\n0 1 0\n0 0 1\n-1 -1 -1\nLINEALITY_SPACE\nMAXIMAL_CONES\n{0 1 2}\n{0 1 3}\n{0 2 3}\n{1 2 3}\n"
THREE_BASES = b"Q[a,b,c]\n{{\nb-c,\na-c}\n,\n{\nc-b,\na-b}\n,\n{\nc-a,\nb-a}}\n"
REFINEMENT = "_fancommonrefinement --i1 @0 --i2 @1"

# small inputs, each command at least once: words, the input, files
SMALL = [
    Case(words.split(), text, files)
    for words, text, *files in [
        ("_bases", b"Q[a,b] {a^2-b}"),
        ("_bases", b"Q[a,b,c] {a-b,b-c}"),
        ("_bases --workers 4", b"Q[a,b,c] {a-b,b-c}"),
        ("_bases --workers 4", b"Q[a,b,c] {a^2-b,b^2-c}"),
        ("_bases --workers 4 --certificates", b"Q[a,b,c] {a-b,b-c}"),
        ("_bases --certificates", b"Q[a,b] {a^2-b}"),
        ("_bases -g", b"Q[a,b,c] {c-b,a-b}"),
        ("_bases --limit 2", b"Q[a,b,c] {a-b,b-c}"),
        ("_bases --pairs 1", b"Q[a,b,c] {aab-c,bbc-a,cca-b}"),
        ("_bases --within @0", b"Q[a,b] {a^2-b}", b"{(-3,2)}"),
        ("_bases --within @0 --certificates --workers 4", b"Q[a,b,c] {a-b,b-c}", b"{(1,-1,0)}"),
        ("_bases --within @0", b"Q[a,b] {a^2-b}", b"{(-1,0)}"),
        ("_bases --after @0", b"Q[a,b,c] {a-b,b-c}", b"Q[a,b,c]{c-b,a-b}"),
        ("_bases --after @0 --workers 4", b"Q[a,b,c] {a^2-b,b^2-c}", b"Q[a,b,c]{b^2-c,a^2-b}"),
        ("_bases --after @0 --within @1", b"Q[a,b,c] {a-b,b-c}", b"Q[a,b,c]{b-c,a-c}", b"{(1,-1,0)}"),
        ("_bases --after @0", b"Q[a,b,c] {a-b,b-c}", b"Q[a,b,c]{a-b}"),
        ("_buchberger", b"Q[a,b,c] {aab-c,bbc-a,cca-b}"),
        ("_buchberger -w", b"Q[a,b] {a-b} (1,2)"),
        ("_buchberger -r", b"Q[a,b] {a^2-b^2}"),
        ("_buchberger --pairs 1", b"Q[a,b] {a^2-1,ab-1}"),
        ("_ismarkedgroebnerbasis", b"Q[a,b] {a^2-b,b^2-a}"),
        ("_doesidealcontain", b"Q[a,b] {a-b} {a^2-b^2}"),
        ("_groebnercone", b"Q[a,b,c] {a^2-b*c,b^2-a*c}"),
        ("_groebnercone --certificates --restrict", b"Q[a,b] {a^2-b}"),
        ("_groebnercone --vectorinput --certificates", b"2 {(1,0),(0,1),(1,1)} {}"),
        ("_groebnercone --vectorinput --certificates", b"2 {(1,0),(0,1),(1,1)} {(1,-1)}"),
        ("_groebnercone --asfan", b"Q[a,b] {a-b}"),
        ("_groebnercone", b"Q[a,b] {a^2-1,ab-1}"),
        ("_leadingterms", b"Q[a,b] {2b-a,a^2}"),
        ("_leadingterms -m", THREE_BASES),
        ("_markpolynomialset", b"Q[a,b] {b+a+1} (0,1)"),
        ("_initialforms", b"Q[a,b] {a+b+1} (1,1)"),
        ("_homogenize", b"Q[x,y] {y-1,x^3-xy+2,0} z"),
        ("_polynomialsetunion", b"Q[a,b] {{a,b},{b,1}}"),
        ("_saturation", b"Q[a,b] {a^2b-ab}"),
        ("_stats", THREE_BASES),
        ("_topolyhedralfan", THREE_BASES),
        ("_topolyhedralfan --restrict", b"Q[a,b] {{a^2-b},{b-a^2}}"),
        ("_weightvector", b"Q[a,b] {b-a^2}"),
        ("_weightvector -m -e", THREE_BASES),
        ("_homogeneityspace", b"Q[a,b] {a-b}"),
        (REFINEMENT, b"", PLANE, HALVES),
        (REFINEMENT, b"", PLANE, QUADRANT),
        (REFINEMENT, b"", SPACE, SPACE),
        ("_migratefan", SPACE),
        ("_migratefan", b"FILE_VERSION\n2\n" + QUADRANT + b"MAXIMAL_INTERIORS\n2 1\n"),
        ("_tropicalhypersurface", b"Q[a,b] {a+b+1}"),
        ("_tropicalintersection", b"Q[a,b] {a+b+1,a-b}"),
        ("_tropicalintersection --basistest", b"Q[a,b,c] {a+b+c,a-b}"),
        ("_minkowskisum", b"Q[a,b] {a+1,b+1}"),
        ("_generated 0 --limit 2", b""),
        ("_generated 0 --workers 4", b""),
        ("_generated 5 --limit 3", b""),
        ("_interactive @0", b"0\nu\n1\n\nx\nu\nu\nq\n", b"Q[a,b]{b^2-a,a^2-b}"),
        ("_interactive --pairs 1 @0", b"0\n0\n", b"Q[a,b,c]{b-c,a-c}"),
        ("_interactive @0", b"0\n", b"Q[a,b]{a-b,b}"),
    ]
]
