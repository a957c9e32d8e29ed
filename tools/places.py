#!/usr/bin/env python3
"""Lists the places in src/ that docs/DESIGN-PASS.md counts: tools/places.py [COMMIT].

With no commit it reads the working tree. Tests, clauses and comments are left out."""
import re
import subprocess
import sys

COMMIT = sys.argv[1] if len(sys.argv) > 1 else None
SHOW = "-l" not in sys.argv


def git(*args):
    return subprocess.run(("git",) + args, capture_output=True, text=True, check=True).stdout


def sources():
    names = git("ls-tree", "-r", "--name-only", COMMIT).split() if COMMIT else git("ls-files").split()
    for name in names:
        if re.fullmatch(r"crates/\w+/src/\w+\.rt", name) and not name.endswith("tests.rt"):
            yield name, (git("show", f"{COMMIT}:{name}") if COMMIT else open(name).read())


def code(text):
    """The lines with their numbers, without clauses, ghost lines and comments."""
    for number, line in enumerate(text.split("\n"), 1):
        if not re.match(r"\s*(//|requires|ensures|ghost |use |#)", line):
            yield number, re.sub(r"\s*// .*", "", line)


LINES = {
    "1": r"^(pub )?enum |^    pub \w+: bool,|\) -> bool$|fn number\(|Err\(\w+\) => \w+::\w+\(\w+\)|Ok\(\w\) => Ok|Some\(\w+\) => Err",
    "3": r"^\s*(while|for|loop)\b",
    "4": r"format!|write!|extend_from_slice\(b\"|impl.* (From|TryFrom|Display|Try)|fn (is_same|is_lowered|\w+_named)|1 \} else \{ 0",
    "6": r"\[[^]]*; *[A-Z0-9][A-Z0-9_a-z +]*\]|truncate\(|, at: usize|let (end|to|end_\w+) = |vec!\[",
    "7": r"^\s*match (script\.rule|self\.state\.\w+|\(self)|\bfn\(|\bdyn |: Fn|impl Fn|FnOnce",
}


def by_lines(point):
    pattern = re.compile(LINES[point])
    return [f"{name}:{n}: {line.strip()}" for name, text in sources() for n, line in code(text) if pattern.search(line)]


def shape(body):
    body = re.sub(r"b?\"(\\.|[^\"])*\"|b?'(\\.|[^'\\])'|\b\d[\d_]*\b", "#", body)
    return tuple(re.findall(r"#|&&|\w+|\S", re.sub(r"\b(?!(?:if|else|match|for|while|return|let|mut|fn|impl)\b)[A-Za-z_]\w*\b", "x", body)))


def twins():
    """Functions, and impls of one function, that differ only in names and literals."""
    seen = {}
    for name, text in sources():
        plain = "\n".join(line for _, line in code(text))
        for m in re.finditer(r"(?m)^( *)(?:pub |final )*fn (\w+)[^{]*?\{\n(.*?)^\1\}", plain, re.S):
            body = shape(m.group(3))
            if len(body) >= 3:
                seen.setdefault(body, []).append(f"{name}: {m.group(2)}")
    return ["; ".join(places) for places in seen.values() if len(places) > 1]


def facts():
    """Clauses that stand in three or more contracts."""
    count = {}
    for _, text in sources():
        for clause in re.findall(r"(?m)^\s+(?:requires|ensures)(?: \w+)? \{ (.*) \}$", text):
            for fact in re.findall(r"setup\w* [\w.]+(?: [\w.]+)? R\.LineRule|length \w+(?:\.\w+)* < 2 \^ 63|\bi < \d+(?: \^ \d+)?|\w+\.new\.\w+ ≡ \w+\.old\.\w+|i \* \S+ \+ \S+ ≤ length \S+", clause):
                count[fact] = count.get(fact, 0) + 1
    return [f"{n} times: {fact}" for fact, n in sorted(count.items()) if n >= 3]


for point in "123456789"[:7]:
    found = twins() if point == "2" else facts() if point == "5" else by_lines(point)
    print(f"point {point}: {len(found)}")
    for place in found:
        print("   ", place)
