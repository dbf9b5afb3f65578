"""The crates as text, for the commands of this folder: the functions of a source file with their contracts; and how a command answers."""
import re
import signal
import sys
from pathlib import Path

ROOT = Path(__file__).resolve().parent.parent
HEAD = re.compile(r'^ *(?P<public>pub(?P<within>\(crate\))? )?(?:extern "C" )?fn (?P<name>\w+)')
BREAK = re.compile(r"//[^\n]*|\b(?P<word>requires|ensures)\b(?P<name>[^{]*)\{|\{")
FROM_GIVES = re.compile(r" *ghost from_gives = \{")


class Clause:
    """`requires` or `ensures`: its name, and what it says; the answer is its `result`. That of a `from` says it as λ argument answer."""

    def __init__(self, word, name, text):
        self.word, self.name, self.text = word, name.strip(), " ".join(text.split())


class Function:
    """Where it stands, its signature on one line, and its clauses."""

    def __init__(self, source, line, owner, of_trait, head, text):
        self.crate, self.source, self.line = crate_of(source), source, line
        self.name = f"{self.crate}::{owner}{head['name']}"
        self.of_trait, self.is_public = of_trait, bool(head["public"]) and not head["within"]
        self.clauses, signature, at = [], "", 0
        while found := BREAK.search(text, at):
            signature += text[at:found.start()]
            at = found.end()
            if found["word"]:
                end = closing(text, at)
                self.clauses.append(Clause(found["word"], found["name"], text[at:end]))
                at = end + 1
            elif found[0] == "{":
                break
        self.signature = " ".join(signature.split()).replace("( ", "(").replace(", )", ")")

    def place(self):
        return f"{self.source.relative_to(ROOT)}:{self.line}"

    def cited(self):
        """The names that its clauses take from a `ghost use` of its file, each with where that is."""
        taken = imports(self.source)
        words = {word for clause in self.clauses for word in re.split(r"[\s(){},;]+", clause.text)}
        return {word: taken[word] for word in words if word in taken}

    def has(self, word):
        return any(clause.word == word for clause in self.clauses)


def imports(source):
    """What a file calls what it takes by `ghost use`, at its top or in an impl, and where that is."""
    taken = {}
    for path, listed in re.findall(r"^ *ghost use ([^\s{;]+)\.\{([^}]*)\};", source.read_text(), re.M):
        for name in listed.split(","):
            there, _, here = name.strip().partition(" as ")
            taken[here or there] = f"{path}.{there}"
    return taken


def closing(text, at):
    """The place of the brace that closes the one before `at`."""
    depth = 1
    for found in re.finditer("[{}]", text[at:]):
        depth += 1 if found[0] == "{" else -1
        if depth == 0:
            return at + found.start()
    return len(text)


def crate_of(source):
    return source.relative_to(ROOT).parts[1]


def sources():
    return sorted(ROOT.glob("crates/*/src/**/*.rt"))


def is_program(source):
    return (ROOT / "crates" / crate_of(source) / "src" / "main.rt").exists()


def is_archive(source):
    """Whether it is of a crate that is built for C alone: crates.txt calls it a `staticlib`, and no other crate can stand on it."""
    return re.search(rf"^{crate_of(source)} .*\bstaticlib\b.*:", (ROOT / "crates.txt").read_text(), re.M) is not None


def functions(source):
    """Those of a file, in order; a method has its type before its name. One of a trait is public where it has a clause of its own, and
    `from` always: its clause is the `from_gives` that its impl has above it."""
    found, owner, of_trait, given = [], "", False, []
    lines = source.read_text().splitlines()
    for at, text in enumerate(lines):
        rest = "\n".join(lines[at:])
        if made := re.match(r"impl(?:<[^>]*>)? (?:\w+(?:<.*>)? (for) )?(\w+)", text):
            owner, of_trait, given = f"{made[2]}::", bool(made[1]), []
        elif text.startswith("}"):
            owner, of_trait, given = "", False, []
        elif said := FROM_GIVES.match(text):
            given = [Clause("ensures", "", rest[said.end():closing(rest, said.end())])]
        elif head := HEAD.match(text):
            found.append(Function(source, at + 1, owner, of_trait, head, rest))
            is_from = of_trait and head["name"] == "from"
            if is_from:
                found[-1].clauses += given
            if is_from or of_trait and found[-1].clauses:
                found[-1].is_public = True
    return found


def public_functions():
    """Those of every crate that is no program; what an archive exports are these again (`exports`)."""
    return [f for source in sources() if not is_program(source) and not is_archive(source) for f in functions(source) if f.is_public]


def exports():
    return [f for source in sources() if is_archive(source) for f in functions(source) if f.is_public]


def verdict(command, looked_at, faults):
    """Tells the faults and how many there are; the status."""
    for fault in faults:
        print(f"{command}: {fault}", file=sys.stderr)
    print(f"{command}: {looked_at}, {len(faults)} faults")
    return 1 if faults else 0


def run(usage, modes):
    """Ends with the status of the mode that is asked for."""
    signal.signal(signal.SIGPIPE, signal.SIG_DFL)
    if len(sys.argv) != 2 or sys.argv[1] not in modes:
        sys.exit(usage)
    sys.exit(modes[sys.argv[1]]())
