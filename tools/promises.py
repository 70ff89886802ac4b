"""Reads from the repository's text what it promises: the exported contracts, the final theorems and the definitions, of a commit or of the
working tree, without comments and layout. `tools/note`, `tools/renamed` and `tools/trace-check` use it."""
import glob
import os
import re
import subprocess

TOP = os.path.join(os.path.dirname(os.path.abspath(__file__)), "..")
THEOREMS = "crates/theorems/proofs/Theorems.antt"
# The functions that the listing program calls, each with its crate's former name.
PROGRAM = [("print_begin", "begin", "lister"), ("print_page", "fill_page", "pages"), ("print_write", "write_pages", "output")]


def git(*arguments):
    """What git prints."""
    return subprocess.run(["git", "-C", TOP, *arguments], capture_output=True, encoding="utf-8", check=True).stdout


class State:
    """The files of a commit, or of the working tree if rev is None."""

    def __init__(self, rev=None):
        self.rev = rev

    def read(self, path):
        """The text of a file, or the empty text if there is no such file."""
        if self.rev is None:
            full = os.path.join(TOP, path)
            return open(full, encoding="utf-8").read() if os.path.isfile(full) else ""
        shown = subprocess.run(["git", "-C", TOP, "show", f"{self.rev}:{path}"], capture_output=True, encoding="utf-8", check=False)
        return shown.stdout if shown.returncode == 0 else ""

    def files(self, folder):
        """The paths of all files in a folder, sorted."""
        if self.rev is None:
            found = glob.glob(os.path.join(TOP, folder, "**", "*"), recursive=True)
            return sorted(os.path.relpath(path, TOP) for path in found if os.path.isfile(path) and "/out/" not in path)
        return sorted(git("ls-tree", "-r", "-z", "--name-only", self.rev, "--", folder).split("\0")[:-1])


def plain(source):
    """The text without layout: no trailing separators, one space between words."""
    return re.sub(r"\s+", " ", re.sub(r"[,;](\s*[)}])", r"\1", source)).strip()


def contract(source, name):
    """The contract of a public function, from its head to its body, or None. The body begins on a line of its own."""
    found = re.search(rf"^ *pub (?:extern \"C\" )?fn {re.escape(name)}(?:<'a>)?\(.*?\n\s*\{{\n", source, re.M | re.S)
    return found.group(0) if found else None


def exported(state):
    """The table in the file of final theorems: the file (below crates/), the name and the definition of each call."""
    return re.findall(r"^--   (\S+/src/\S+\.rt) +(\w+) +(\w+)$", state.read(THEOREMS), re.M)


def contracts(state):
    """The contracts of the nine calls, of the C functions and of the listing program's functions, by crate and name."""
    wanted = [(path.split("/")[0], name) for path, name, _ in exported(state)]
    wanted += [(crate if state.files(f"crates/{crate}/src") else former, name) for crate, name, former in PROGRAM]
    crates = {"filbozseg", *(crate for crate, _ in wanted)}
    sources = {crate: "".join(map(state.read, state.files(f"crates/{crate}/src"))) for crate in crates}
    wanted += [("filbozseg", name) for name in re.findall(r'^pub extern "C" fn (\w+)\(', sources["filbozseg"], re.M)]
    found = {f"{crate}::{name}": contract(sources[crate], name) for crate, name in wanted}
    return {name: plain(re.sub(r"//.*", "", text)) for name, text in found.items() if text}


def sections(source):
    """The lines of an antt file without comments, blank lines and imports, each with the heads of the sections around it."""
    heads, opening = [], None
    for line in source.split("\n"):
        line = re.sub(r"(^|\s)--.*", "", line).rstrip()
        if not line or re.match(r"(pub )?(use|mod) |infix", line):
            continue
        indent = len(line) - len(line.lstrip())
        if opening is None:
            heads = [head for head in heads if head[0] < indent]
        if opening is not None or (indent == 2 * len(heads) and re.match(r" *(module |mutual\b)", line)):
            opening = (opening or []) + [line]
            if re.search(r"\b(where|mutual)$", line):
                first = opening[0]
                heads, opening = heads + [(len(first) - len(first.lstrip()), plain(" ".join(opening)))], None
        else:
            yield heads, line


def declarations(source):
    """The declarations of an antt file: name, statement (the type, or a whole record or data) and text, each with the heads around it."""
    found, own = [], ""
    for heads, line in sections(source):
        head = re.match(r" {%d}(?:(?:abbrev|unfoldable) )?(?:pub )?(?:(record|data) (\S+)|(\S+) :(?=\s|$))" % (2 * len(heads)), line)
        if head:
            own = head.group(2) or head.group(3)
            around = " ".join(text for _, text in heads)
            found.append([own, [around, line], [around, line], True])
        elif found:
            last = found[-1]
            last[3] = last[3] and not re.match(rf" *(unfolding |{re.escape(own)}(\s|$))", line)
            last[1] += [line] if last[3] else []
            last[2].append(line)
    return [(name, plain("\n".join(statement)), plain("\n".join(text))) for name, statement, text, _ in found]


def theorems(state):
    """The statements of the final theorems by their names."""
    return {name: statement for name, statement, _ in declarations(state.read(THEOREMS))}


def definitions(state, paths):
    """The definitions of these files, if in specs/, and the types that they declare, if in src/: by crate and name, all of that name."""
    defined = {}
    for path in paths:
        crate, part = path.split("/")[1:3]
        if part == "specs" and path.endswith(".antt"):
            here = [(name, text) for name, _, text in declarations(state.read(path))]
        elif part == "src" and path.endswith(".rt"):
            types = re.finditer(r"^pub (?:struct|enum) (\w+)[^{;]*\{.*?^\}", state.read(path), re.M | re.S)
            here = [(found.group(1), plain(re.sub(r"//.*", "", found.group(0)))) for found in types]
        else:
            here = []
        for name, text in here:
            defined.setdefault((crate, name), []).append(text)
    return {key: sorted(texts) for key, texts in defined.items()}
