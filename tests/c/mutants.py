"""Shows that tests/c/answers.c can fail: it must, for each wrong header that is tried.

A wrong header has two fields of a struct exchanged, or two parameters of a call, or the numbers of two names of an enum, or the words of two
causes, or one constant changed, but for those of stacks, which tests/c/stacks.c measures. answers.c is built with it against
target/library/libfeltloquat.a, which ./library makes, and run. Caught is what does not compile, fails, or stops by a signal. What may survive is named
below, with its reason.

Run from anywhere: python3 -B tests/c/mutants.py [--all]
Without --all only fields, parameters and names that stand next to each other are exchanged.
"""

import re
import subprocess
import sys
import tempfile
from itertools import combinations
from pathlib import Path

ROOT = Path(__file__).resolve().parent.parent.parent
LIBRARY = ROOT / "target/library/libfeltloquat.a"
OPTIONS = ["-std=c99", "-pedantic", "-Wall", "-Wextra", "-Werror"]

# The three entries of a reason have no order: any order of them is a right answer.
SURVIVING = {
    "fields first and second of feltloquat_verdict_answer",
    "fields first and third of feltloquat_verdict_answer",
    "fields second and third of feltloquat_verdict_answer",
}


def exchanged(text, one, other):
    """The text with two parts of it exchanged, given as (start, end), the first before the other."""
    return text[: one[0]] + text[other[0] : other[1]] + text[one[1] : other[0]] + text[one[0] : one[1]] + text[other[1] :]


def pairs(found, every):
    """Every pair, or the neighbours."""
    return list(combinations(found, 2)) if every else list(zip(found, found[1:]))


def mutants(header, every):
    """(what was done, the wrong header) for each."""
    made = []
    for struct in re.finditer(r"^struct (\w+) \{\n(.*?)^\};", header, re.S | re.M):
        fields = list(re.finditer(r"^ +(?:struct )?\w+ (\w+);", struct.group(2), re.M))
        for one, other in pairs(fields, every):
            spans = [(struct.start(2) + field.start(), struct.start(2) + field.end()) for field in (one, other)]
            made.append(("fields %s and %s of %s" % (one[1], other[1], struct[1]), exchanged(header, *spans)))
    for call in re.finditer(r"^(?:struct \w+|size_t) (\w+)\((.*?)\);", header, re.S | re.M):
        names = [re.search(r"(\w+)(?:\[\w+\])?$", parameter)[1] for parameter in call[2].split(",")]
        for one, other in pairs(range(len(names)), every):
            order = list(names)
            order[one], order[other] = order[other], order[one]
            macro = "#define %s(%s) (%s)(%s)\n" % (call[1], ", ".join(names), call[1], ", ".join(order))
            made.append(("parameters %s and %s of %s" % (names[one], names[other], call[1]), header + macro))
    for enum in re.finditer(r"^enum (\w+) \{\n(.*?)^\};", header, re.S | re.M):
        numbers = list(re.finditer(r"(FELTLOQUAT_\w+) = (\d+)", enum[2]))
        for one, other in pairs(numbers, every):
            spans = [(enum.start(2) + number.start(2), enum.start(2) + number.end(2)) for number in (one, other)]
            made.append(("numbers of %s and %s" % (one[1], other[1]), exchanged(header, *spans)))
    words = list(re.finditer(r'case FELTLOQUAT_(\w+): return ("[^"]*")', header))
    for one, other in pairs(words, every):
        made.append(("words of %s and %s" % (one[1], other[1]), exchanged(header, one.span(2), other.span(2))))
    for constant in re.finditer(r"^#define (FELTLOQUAT_(?!STACK_)\w+) (\d+)", header, re.M):
        wrong = str(int(constant[2]) + 1)
        made.append(("%s %s" % (constant[1], wrong), header[: constant.start(2)] + wrong + header[constant.end(2) :]))
    return made


def outcome(wrong, folder):
    """What becomes of answers.c with a wrong header."""
    (folder / "feltloquat.h").write_text(wrong, encoding="ascii")
    program = folder / "answers"
    build = ["cc", *OPTIONS, "-I", str(folder), str(ROOT / "tests/c/answers.c"), str(LIBRARY), "-o", str(program)]
    if subprocess.run(build, capture_output=True, check=False).returncode != 0:
        return "does not compile"
    ran = subprocess.run([str(program)], cwd=folder, capture_output=True, check=False)
    if ran.returncode == 0:
        return "survives"
    return "fails" if ran.returncode == 1 else "stops by a signal"


def main(arguments):
    """Tries each wrong header."""
    header = (ROOT / "include/feltloquat.h").read_text(encoding="ascii")
    counts, status = {}, 0
    with tempfile.TemporaryDirectory() as name:
        folder = Path(name)
        if outcome(header, folder) != "survives":
            print("tests/c/answers.c fails with the right header")
            return 1
        for what, wrong in mutants(header, arguments == ["--all"]):
            if wrong == header:
                print("no mutant: " + what)
                status = 1
            found = outcome(wrong, folder)
            counts[found] = counts.get(found, 0) + 1
            if (found == "survives") != (what in SURVIVING):
                print("%s: %s" % (found, what))
                status = 1
    print("wrong headers: " + ", ".join("%d %s" % (count, found) for found, count in sorted(counts.items())))
    return status


if __name__ == "__main__":
    sys.exit(main(sys.argv[1:]))
