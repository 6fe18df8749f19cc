"""What the commands share that make something wrong in a copy of the tree and ask the prover: definitions.py and edits.py."""
import contextlib
import os
import re
import shutil
import subprocess

# A refusal counts where the prover saw a fact fail. This is what it prints then, in the lines of an error in a proof; a definition or a contract with such an error has no meaning.
FACTS = [
    # a term does not have the type that is asked for: the two, and where they part ("where one has `15` (expected) and the other has `14` (found)")
    r"the two (types|sides|values|indices) (first |only )?(differ|are)",
    r"expected type `.*but this has type",
    # the same at an end of a path
    r"on the face `.*` this λ's body is .*requires",
    # the same, seen when the value of a `_` was known
    r"≟ .*does not hold",
    # `omega`: a counterexample, values at which all that it read holds and its goal does not
    r"All of that holds, and the (goal|part) fails, at",
    # `grind`: the same, where it looked into all definitions that the goal names ("these may not break the goal" it says of others)
    r"The hypotheses hold, and the (goal|part) fails at",
    # `cc`, `rw`: the two sides of an equation are not equal by what is given
    r"`cc`: the equations do not join",
    r"what it leaves must be a path whose two ends are equal, and .*is none",
]

# A step that looked for something and did not find it. Where `grind`, which a search asks, has no counterexample, no fact was seen to fail, so this is no reason by itself; others in the same
# file may be.
SOUGHT = r"`search`: no proof of(?!.*The hypotheses hold, and the (goal|part) fails at)|`rw`: no occurrence of the path's left endpoint"

# What is left of a refused declaration wherever it is named, and of a function wherever it is called: says nothing by itself.
FOLLOWS = r"that depends? on `.*`, which was (rejected|not admitted)|was not admitted \(|cannot be unfolded because it was not admitted"

# Any other error is a file that cannot be read as it stands: `error[..]` of the compiler, a line that starts at a wrong column, a name that is not there ("is not in scope", "that can be named
# from here"), a proof file that no longer fits its function ("has no field `if1`", "has no `returns-2`"), a definition without a clause. It takes the word of all else in that file.

ERROR = re.compile(r"(\S+?):(\d+:\d+): error(\[\S+\])?: (.*)", re.S)
# A goal that no proof file answers: Rattle's own search asks for values at which all that is known there holds and the goal does not. Where it ends in "no proof: expected ..; `search` did not
# prove `returns`" without such values, no fact was seen to fail.
MAY_BE_FALSE = re.compile(r"note: (`\S+`) of (\S+) may be false: (the known facts allow .*?)(?:: help: .*)?$", re.S)
# The same at the goal's place in the source, where it names no values.
HAS_VALUES = re.compile(r"note: (\S+?):(\d+:\d+): (it is not proved that .*; the facts known there allow values at which this goal is false.*)", re.S)
# What it says of a search that asked `omega`.
SEARCHED = re.compile(r"note: what antt said of a `search` in the proof that rattle made: (\S+?):(\d+:\d+): (.*)", re.S)


def copy_tree(root):
    """The crates, copied to a folder without what was made of them, in which the work goes on."""
    os.makedirs(root, exist_ok=True)
    shutil.copytree("crates", root + "/crates", ignore=shutil.ignore_patterns("out"))
    shutil.copy("crates.txt", root)
    os.chdir(root)


@contextlib.contextmanager
def replaced(changes):
    """For a while each (path, old, new) is applied; each old text stands once in its file."""
    kept, texts = {}, {}
    for path, old, new in changes:
        if path not in texts:
            with open(path) as f:
                kept[path] = texts[path] = f.read()
        assert texts[path].count(old) == 1, (path, old)
        texts[path] = texts[path].replace(old, new)
    written(texts)
    try:
        yield
    finally:
        written(kept)


def written(texts):
    """Each file gets its text."""
    for path, text in texts.items():
        with open(path, "w") as f:
            f.write(text)


def messages(out):
    """The prover's messages: a line, and those below it that are set in."""
    said = []
    for line in out.split("\n"):
        if line.startswith("  ") and said:
            said[-1] += "\n" + line
        else:
            said.append(line)
    return said


def counterexample(text):
    """Whether `omega` names values of the program's own numbers: of a definition (of `specs`) it knows nothing, and may give it any."""
    at = re.search(r"the (?:goal|part) fails, at (.*?)\. It read", text, re.S)
    return at and "specs." not in at[1]


def refusal(out):
    """What `check` returned: the facts that no longer hold, as (path, place, words), and what else was said."""
    facts, unnamed, others, unfit = [], [], [], set()
    for text in messages(out):
        error, searched, false, has = (kind.match(text) for kind in (ERROR, SEARCHED, MAY_BE_FALSE, HAS_VALUES))
        if error and not re.search(FOLLOWS, text):
            said = error[1].split("/crates/")[-1], error[2], error[4]
            if re.search(SOUGHT, text, re.S):
                others.append(said)
            elif "/proofs/" in said[0] and any(re.search(fact, text, re.S) for fact in FACTS):
                facts.append(said)
            else:
                others.append(said)
                unfit.add(said[0])
        elif searched and counterexample(text):
            facts.append((searched[1].split("/crates/")[-1], searched[2], searched[3][searched[3].index("`omega`: the"):]))
        elif false:
            facts.append((false[2], false[1], false[3]))
        elif has:
            unnamed.append((has[1].split("/crates/")[-1], has[2], has[3]))
        elif re.match(r"fn \S+: (no proof|not proved)|rattle|rt: the library \S+ did not build", text):
            others.append(("", "", text))
    return [fact for fact in facts + unnamed if fact[0] not in unfit], others


def check(name):
    """Whether `rt check` proves a crate, over what it kept of it, and all that it says, with the crate's own files as NAME/proofs/F/Answers.antt."""
    ran = subprocess.run(["rt", "check"], cwd="crates/" + name, stdin=subprocess.DEVNULL, stdout=subprocess.PIPE, stderr=subprocess.STDOUT)
    return ran.returncode == 0, re.sub(r"(?<![\w./])(?:\./)?((?:src|specs|proofs)/\S+\.(?:rt|antt))", rf"{name}/\1", ran.stdout.decode(errors="replace"))


def in_short(said):
    """A fact or what else was said, on one line."""
    path, place, text = said
    return re.sub(r"\s+", " ", f"{path}:{place}: {text}" if path else text)[:300]
