"""What the prover's answer says of a wrong body.

A wrong body is refused well where a goal of its own function stays open, or where
a proof that was written for the function no longer fits the goal. It is refused
weakly where all that is told is that a written proof names what the edit took out.
"""
import re
from collections import namedtuple

REFUSED = "refused"
BY_PROOF = "refused by a written proof"
NAMES = "only a written proof names what was taken out"
NO_MEASURE = "it calls itself, and has no measure"
PROVED = "proved"
UNREAD = "it does not read alone"
ELSEWHERE = "refused elsewhere only"
NO_VERDICT = "no verdict"
WORDS = (REFUSED, BY_PROOF, NAMES, NO_MEASURE, PROVED, UNREAD, ELSEWHERE, NO_VERDICT)
WELL = (REFUSED, BY_PROOF)
# The name of a function, one of these words, and the goals that refuse, or what was said.
Verdict = namedtuple("Verdict", "name word by")

FUNCTION = re.compile(r"^fn (\S+?): (proved|no proof|not proved)(.*)$", re.MULTILINE)
ERROR = re.compile(r"^(?:\./)?(\S+?):\d+:\d+: error: (.*)$", re.MULTILINE)
OPEN = re.compile(r"^note: (src/\S+?):(\d+):\d+: (it is not proved .*)$", re.MULTILINE)
LACKS = re.compile(
    r"has no field|is not in scope|has no `|was not admitted|(?:is no|is not a) name"
    r"|that can be named from|declarations? that depends? on"
)
GAVE_UP = "gave up at one of its limits"


def verdict_of(functions, status, said):
    """What is said of the functions: one that is refused well decides, or else the last."""
    found = [verdict_on(function, status, said) for function in functions or [None]]
    return next((it for it in found if it.word in WELL), found[-1])


def verdict_on(function, status, said):
    """What is said of the function, or for None of any function of the crate."""
    name = function.name if function else "no function"
    last = said.rstrip("\n").rpartition("\n")[2]
    if status not in (0, 1, 2):
        return Verdict(name, NO_VERDICT, last)
    found = FUNCTION.findall(said)
    if not found:
        return Verdict(name, UNREAD, next((line for line in said.split("\n") if "error" in line), last))
    own = [it for it in found if function is None or is_of(it[0], function)]
    refused = [it for it in own if it[1] != "proved" and "it calls" not in it[2]]
    if refused:
        return Verdict(name, *why(function, refused[0], said))
    others = [it[0] for it in found if it[1] != "proved"]
    if others:
        return Verdict(name, ELSEWHERE, ", ".join(others[:3]))
    return Verdict(name, PROVED, "") if own and status == 0 else Verdict(name, NO_VERDICT, last)


def is_of(printed, function):
    """Whether a printed name is the function's, or that of a closure in it."""
    return bool(re.search(rf"(^|::){re.escape(function.name)}($|::|\+)", printed.replace("fn::", "")))


def why(function, refused, said):
    """The word and the goals for a function that is not proved, by the line that says so."""
    name, word, rest = refused
    if "expected a measure" in rest:
        return NO_MEASURE, ""
    if word == "no proof":
        return REFUSED, ", ".join(re.findall(r"`([^`]+)`", rest.partition("did not prove")[2])) or rest
    goals = open_goals(function, said)
    strong = [goal for goal in goals if GAVE_UP not in goal]
    if strong:
        return REFUSED, named_in(strong)
    errors = proof_errors(function.name if function else name.partition("::")[2], said)
    fitting = [error for error in errors if not LACKS.search(error)]
    if fitting:
        return BY_PROOF, named_in(fitting)
    return NAMES, named_in(errors or goals or [rest])


def open_goals(function, said):
    """The goals in the function's lines that are said not to be proved."""
    found = [(path, int(line), text) for path, line, text in OPEN.findall(said)]
    if function is None:
        return [text for _, _, text in found]
    lines = range(function.first, function.last + 1)
    return [text for path, line, text in found if path == function.path and line in lines]


def proof_errors(name, said):
    """The errors in the proof files of the function of that name."""
    folder = f"/{name.replace('::', '/')}/"
    return [text for path, text in ERROR.findall(said) if path.startswith("proofs/") and folder in f"/{path}"]


def named_in(texts):
    """The goals that the texts name, each once."""
    found = [re.search(r"\(`([^`]+)`\)", text) or re.search(r"`([^`]+)`", text) for text in texts]
    return ", ".join(dict.fromkeys(it[1] for it in found if it)) or texts[0]
