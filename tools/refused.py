"""What the prover refused first of a must-fail edit, in words, from the line that `rt ci` or `rt must-fail` prints of the edit. For
`tools/must-fail` and `tools/must-fail-doc`.

rt names the first error that is not only about what rests on another one, and cuts its text. An obligation of a function has a name:
`returns` (what it promises), `G-requires` (what a call of G asks for), `LOOP-init`, `LOOP-preserved`, `LOOP-smaller` (invariant and measure
of a loop), or the operation that has to be safe. Where an obligation is answered in a list, without a name of its own, the words only say
of which function it is. A line of an edit does not add or remove lines, so places in the edited files are places in the files."""
import os
import re

# What the prover says if a fact fails. Any other error is one of shape.
FACTS = [
    r"`search`: no proof of ",
    r"`search` gave up at one of its limits",
    r"`grind`: ",
    r"`omega`: the (?:goal|part .+?) (?:of the goal )?does not follow ",
    r"as printed, the two (?:types|sides) (?:first )?differ ",
    r"computed as far as they go, the two (?:types|sides) (?:are|agree until one ends|(?:first )?differ) ?",
    r"computed as a goal is, one side reads ",
    r"this `\w+` lands at index .+ but the expected type ",
    r"expected type ",
    r"give a proof of that as the last argument, `rw L t`",
    r"`simp`: no equation of the list has an instance in the goal ",
    r"it is not proved that ",
]

# The obligations of a function in words, by how their names begin or end (the table "The names of goals" in the kit's SHORTER_PROOFS.md).
OBLIGATIONS = {
    r"returns(?:-.+)?": "what `{f}` promises when it returns",
    r"(?P<g>\w+)(?:-.+)?-requires(?:-.+)?": "what `{f}` must show before it calls `{g}`",
    r".*\bloop.*-init(?:-.+)?": "the loop invariant of `{f}`, where the loop starts",
    r".*\bloop.*-preserved(?:-.+)?": "the loop invariant of `{f}`, after a turn",
    r".*\bloop.*-smaller(?:-.+)?": "that the loop of `{f}` ends",
    r".+-smaller(?:-.+)?": "that the calls of `{f}` end",
    r"(?:offset_)?bounds-.+": "that an index in `{f}` is below the length",
    r"slice_bounds-.+": "that a part in `{f}` is within its slice",
    r"overflow_add-.+": "that a sum in `{f}` fits its type",
    r"overflow_sub-.+": "that a difference in `{f}` is not below 0",
    r"overflow_mul-.+": "that a product in `{f}` fits its type",
    r"overflow_step-.+": "that a counter in `{f}` fits its type",
    r"overflow_sh[lr]-.+": "that a shift in `{f}` is less than the width",
    r"overflow_cast-.+": "that a value in `{f}` fits the type to which it is cast",
    r"nonzero_(?:div|rem)-.+": "that a divisor in `{f}` is not 0",
    r"invariant_of-.+": "that a value that `{f}` makes is one of its type",
}


class Shape(Exception):
    """The edit is not refused, or not for a fact that fails."""


def read(path):
    """What a file holds."""
    return open(path, encoding="utf-8").read()


def lines_of(said):
    """What rt said of each edit that it tried, by CRATE/LABEL."""
    return dict(re.findall(r"^rt: must-fail (\w+/[\w.-]+)\.edit: (.*)$", said, re.M))


def owner(path, name):
    """The function of a proof with its module, and a name without it. The proof of a cycle of calls is in a folder `+CYCLE`, and the names in
    it begin with that of the function."""
    *modules, folder = path.split("/")[1:-1]
    if not folder.startswith("+"):
        return "::".join([*modules, folder]), name
    function, _, rest = name.partition("-")
    return "::".join([*modules, function]), rest or name


def in_words(function, goal):
    """An obligation of a function in words, or None if there are none."""
    for name, said in OBLIGATIONS.items():
        if found := re.fullmatch(name, goal):
            return said.format(f=function, g=found.groupdict().get("g", ""))
    return None


def refused(edit, said, top="."):
    """What the prover refused first of an edit CRATE/LABEL, in words, from what rt said of it."""
    crate = os.path.join(top, "crates", edit.split("/")[0])
    error = re.fullmatch(r"refused, as it must be: (?:note: )?(?:\./)?((?:src|specs|proofs)/\S+?):(\d+):(\d+): (?:error: )?(.*)", said)
    if not error:
        raise Shape(said[:200])
    path, line, column, text = error[1], int(error[2]), int(error[3]), error[4]
    name = re.match(r"`([^`]+)`: ", text)
    declared = name is not None and not re.fullmatch(r"search|grind|omega|simp|rw", name[1])
    if not any(re.match(fact, text[name.end():] if declared else text) for fact in FACTS):
        raise Shape(f"{path}:{line}:{column}: {text[:200]}")
    lines = read(f"{crate}/{path}").splitlines(keepends=True)
    if path.startswith("src/"):
        while lines[line - 1].lstrip().startswith("#["):  # an attribute of the function on the next line
            line += 1
        function = re.findall(r"^\s*(?:pub )?(?:extern \S+ )?fn (\w+)", "".join(lines[:line]), re.M)[-1]
        module = re.sub(r"^(?:lib|main)::", "", f"{path[4:-3].replace('/', '::')}::{function}")
        goal = re.search(r"\(`([\w-]+)`\)", text)
        return goal and in_words(module, goal[1]) or f"a fact that `{module}` has to show"
    if not declared:
        raise Shape(f"{path}:{line}:{column}: an error of no declaration: {text[:200]}")
    if not re.search(r"/(?:Proof|Answers|Invariants)\.antt$", path):
        # a `refl` of a law without parameters: both sides are computed
        computed = lines[line - 1][column - 1:].startswith("refl") and re.search(rf"^\s*{re.escape(name[1])} =", "".join(lines), re.M)
        return f"the {'computed result' if computed else 'law'} `{name[1]}` (`{path}`)"
    function, rest = owner(path, name[1])
    if rest.endswith("_spec"):
        return f"a fact in the proof of `{function}` (`{path}`)"
    return in_words(function, rest) or f"the law `{name[1]}` in the proof of `{function}` (`{path}`)"
