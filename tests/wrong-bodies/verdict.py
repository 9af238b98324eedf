"""What the prover said of the functions of a check."""
import re

# What it says of a function of which a goal of its own is open, and of one whose stored proof it refuses. That a function
# calls or passes on one that isn't proved says nothing of the function itself.
OPEN = re.compile(r"^fn (\S+): no proof: expected answers in \S+; `search` did not prove ")
NOT_PROVED = re.compile(r"^fn (\S+): not proved")
# A goal that is open, told in front of the line of its function.
OPEN_GOAL = re.compile(r"^note: src/\S+: it is not proved that .*\(`[^`]+`\)")
# An answer to a goal, or an invariant, that the prover refuses; it goes on in lines that begin with blanks.
BROKEN = re.compile(r"^(?:\./)?proofs/(\S+)/(?:Answers|Invariants|Proof)\.antt:\d+:\d+: error: ")
# What it says where an answer only names something that isn't there, or rests on such a one.
MOVED = re.compile(r"has no field|has no `|is not in scope|not admitted|that can be named from here")
# What it says where the goal that an answer is for has another name.
MOVED_GOAL = re.compile(r"Goals`?\s+has no `|Goals` has no `")
# The last line of a check of some functions, and of one of a whole crate.
SOME = re.compile(r"(?m)^only=(\d+) proved=(\d+)")
NONE = re.compile(r"(?m)^logic=not-proved")


def messages(said):
    """The prover's messages, each with the lines that belong to it."""
    found = []
    for line in said.split("\n"):
        if line.startswith("so far: "):
            continue
        if line.startswith("  ") and found:
            found[-1] += f"\n{line}"
        else:
            found.append(line)
    return found


def is_refusal(said):
    """Whether the prover read all and didn't prove all."""
    some = SOME.search(said)
    return bool(some and some[1] != some[2] or NONE.search(said))


def why_let_through(said):
    last = said.rstrip("\n").rpartition("\n")[2]
    if last.startswith(("logic=proved", "only=")):
        return "it is still proved"
    first = next((it for it in said.split("\n") if "error" in it), last)
    return f"the prover can't read it: {first[:160]}"


class Verdict:
    """The functions of which a goal is open, or an answer refused for what it says; and those of which a stored proof only
    names what a mutant moved."""

    def __init__(self, crate, said):
        self.refused, self.moved = set(), set()
        refused_answers, moved_answers, moved_goals, goals = set(), set(), set(), 0
        for it in messages(said):
            if broken := BROKEN.match(it):
                # Functions that call one another have a proof together, in a folder with a + before the name.
                name = f"{crate}::{broken[1].replace('/+', '/').replace('/', '::')}"
                (moved_answers if MOVED.search(it) else refused_answers).add(name)
                if MOVED_GOAL.search(it):
                    moved_goals.add(name)
            elif OPEN_GOAL.match(it):
                goals += 1
            elif it.startswith("fn "):
                if found := OPEN.match(it):
                    self.refused.add(found[1])
                elif (found := NOT_PROVED.match(it)) and goals and found[1] not in moved_goals:
                    self.refused.add(found[1])
                goals = 0
        self.refused |= refused_answers
        self.moved = moved_answers - self.refused
