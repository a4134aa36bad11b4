"""The blocks that `classify --why` and `explain` print, passed to `verify`; and the sources on which checks try them."""
import itertools
import pathlib
import re
import subprocess
import sys
import tempfile

TOP = pathlib.Path(__file__).resolve().parent.parent
REFERENCE = TOP.parent / "shared/reference"
SECONDS = 60
DONE, NO, BAD, TOO_LARGE = 0, 1, 2, 7
TOKEN = re.compile(r'"[^"]*"|#[^\n]*|[A-Za-z0-9_]+|.', re.DOTALL)


def asked(program, *arguments):
    """The status and the text that a program answers."""
    done = subprocess.run([program, *map(str, arguments)], capture_output=True, text=True, timeout=SECONDS)
    return done.returncode, done.stdout


def marked(text):
    """Pairs of a line, and whether it is in a block: from one that begins with `why` to the line `end`."""
    inside = False
    for line in text.splitlines():
        inside = inside or line.startswith("why ")
        yield line, inside
        inside = inside and line != "end"


def outside(text):
    """The lines that are in no block."""
    return [line for line, inside in marked(text) if not inside]


def target_of(line):
    """The target, as `op f` or `txn f`, whose section begins with this line, if one does."""
    words = line.split()
    if line.startswith(("op ", "txn ")):
        return " ".join(words[:2])
    return " ".join(words[1:3]) if line.startswith("none ") else None


def blocks(text):
    """Triples of a target, a block's first line, and its other lines, which are an execution's file."""
    target, block = None, []
    for line, inside in marked(text):
        if not inside:
            target = target_of(line) or target
            continue
        block.append(line)
        if line == "end":
            yield target, block[0], block[1:]
            block = []


def alone(source, target):
    """The source in which the contracts of all targets but this one are `true`."""
    kind, name = target.split()
    tokens = [token for token in TOKEN.findall(source) if not token.startswith("#")]
    words = [index for index, token in enumerate(tokens) if not token.isspace()]
    follows = dict(zip(words, words[1:]))
    out, within, skipping = [], None, False
    for index, token in enumerate(tokens):
        if token in ("op", "transaction"):
            within = ("op" if token == "op" else "txn", tokens[follows[index]])
        if skipping and token != ";":
            continue
        skipping = False
        out.append(token)
        if token == "contract" and within != (kind, name):
            out.append(" true")
            skipping = True
    return "".join(out)


def is_breach(target, said):
    """Whether a line of `verify` says that the target's contract fails."""
    kind, name = target.split()
    words = said.split()
    if words[:2] != ["fails", kind] or len(words) < 3:
        return False
    return words[2] == name if kind == "op" else words[2].split(":")[1] == name


def is_at(first, said):
    """Whether it fails where a block's first line says."""
    stated, words = first.split(), said.split()
    if stated[2] == "at":
        return words[4] == stated[3]
    return words[2].split(":")[0] == stated[3]


class Count:
    """What a check of blocks has looked at, and how many faults it found."""

    def __init__(self, check):
        self.check = check
        self.sources = self.blocks = self.elsewhere = self.large = self.faults = 0

    def fault(self, name, text):
        self.faults += 1
        print(f"{self.check}: {name}: {text}")

    def summary(self, blocks, more=""):
        return (
            f"{self.check}: {self.sources} sources, {self.blocks} {blocks}, of which {self.elsewhere} fail elsewhere first and "
            f"{self.large} are too much for verify; {more}{self.faults} faults"
        )


def verified(program, source, name, text, count, folder):
    """Passes the blocks of a text to `verify`, each with the source in which all other contracts are `true`."""
    for target, first, lines in blocks(text):
        count.blocks += 1
        block, judged = folder / "block", folder / "judged"
        block.write_text("\n".join(lines) + "\n")
        judged.write_bytes(alone(source.read_bytes().decode("latin-1"), target).encode("latin-1"))
        status, said = asked(program, "verify", judged, block)
        if status == TOO_LARGE and said.startswith("too much "):
            count.large += 1
        elif status != NO or not is_breach(target, said):
            count.fault(name, f"{target}: {first}: verify says {said.strip()} with status {status}")
        elif not is_at(first, said):
            count.elsewhere += 1


def examples():
    return sorted((TOP / "examples/sources").glob("*.ql"))


def random_sources():
    """Sources of the independent implementation's own generator, one after another without end."""
    if not (REFERENCE / "quelea_ref").is_dir():
        return
    sys.path.insert(0, str(REFERENCE))
    from quelea_ref import cases, stages

    stage = stages.stage_of((TOP / ".ci/stage").read_text().strip())
    for index in itertools.count():
        case = cases.make("why", 1, index, stage)
        if case.words == ["classify", "--why", "s"] and isinstance(case.files.get("s"), bytes):
            yield f"random {index}", case.files["s"]


def go_through(judge, programs, count):
    """Judges the examples, and then random sources until this many more are counted. A judge takes a source's file and title,
    and a folder for files of its own."""
    with tempfile.TemporaryDirectory() as name:
        folder = pathlib.Path(name)
        for source in examples():
            judge(source, source.name, folder)
        most = count.sources + programs
        for title, text in random_sources():
            source = folder / "source"
            source.write_bytes(text)
            judge(source, title, folder)
            if count.sources + count.faults >= most:
                break
