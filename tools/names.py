"""The names that Rattle makes of a function's code for the goals and the steps of its proof, and what they are called where an edit changes the code.

A goal is named by what is asked there and by the tests on the way to it, as `returns-then-size-le1` behind `if size <= 1`; so an edit that changes a test
takes names away, and a proof that is cited by them says nothing of the edit any more. Where the goals before and after it are one for one, in the order of
the lines that they stand at, the names of the one are put in the place of the other's."""
import re

WORD = re.compile(r"(?<![\w'-])[A-Za-z_][\w']*(?:-[\w']+)*")
BRANCH = re.compile(r"(?:^|.*-)(?:then|else|Then|Else)-(.*)$")  # a name that says of a test how it came out


class Made:
    """The goals of a function with the line of each, in their order, and the places that its proof can name, from what Rattle writes to start a proof."""

    def __init__(self, answers, goals):
        self.goals = [(int(line), name) for line, name in re.findall(r"^-- \S+?:(\d+):\d+$\n(?:^--.*\n)*^pub (\S+) : goal\.", answers, re.M)]
        self.places = set(re.findall(r"^abbrev pub ((?:After|Then|Else|In)\S*) : ", goals, re.M))


def base(name):
    """A goal's name without the clause that it is one of several for."""
    return re.sub(r"-clause-\w+$", "", name)


def only(old, new):
    """What one set has in the place of another's, if it differs in one."""
    gone, come = old - new, new - old
    return {gone.pop(): come.pop()} if len(gone) == len(come) == 1 else {}


def tests(names):
    return {found[1] for found in map(BRANCH.match, names) if found}


def renaming(old, new):
    """What a name in the proof of the old code is to be for the new: a function; none where the goals are not one for one, or no name differs."""
    if [line for line, _ in old.goals] != [line for line, _ in new.goals]:
        return None
    pairs = [(one, other) for (_, one), (_, other) in zip(old.goals, new.goals) if one != other]
    goals = dict(pairs) | {base(one): base(other) for one, other in pairs}
    of_tests = {}
    for one, other in goals.items():
        pair = [BRANCH.match(re.sub(r"-\d+$", "", base(word))) for word in (one, other)]
        if all(pair) and pair[0][1] != pair[1][1]:
            of_tests[pair[0][1]] = pair[1][1]
    if not of_tests:
        of_tests = only(tests(old.places), tests(new.places))
    calls = only({place.removeprefix("After-") for place in old.places if place.startswith("After-")}, {place.removeprefix("After-") for place in new.places if place.startswith("After-")})
    branch = re.compile(rf"(^|-)(then|else|Then|Else|if)-({'|'.join(map(re.escape, sorted(of_tests, key=len, reverse=True)))})(?=-|$)") if of_tests else None

    def name(word, is_field):
        if word in goals:
            return goals[word]
        if is_field and word in calls:
            return calls[word]
        return branch.sub(lambda found: f"{found[1]}{found[2]}-{of_tests[found[3]]}", word) if branch else word

    def renamed(text):
        return WORD.sub(lambda found: name(found[0], text[found.start() - 1:found.start()] == "."), text)

    return renamed if goals or of_tests or calls else None
