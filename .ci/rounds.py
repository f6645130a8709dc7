"""The edits of a crate, tried in rounds, and what is said of them."""
import re
import time
from threading import Lock
from functions import BadEdit, constants_of, edit_of, functions_of, read, twin_of

REFUSED, PROVED, WAITS, UNREADABLE, NAMES = "refused", "proved", "waits", "does not compile", "refused for a name alone"
SHAPE = "(a term of another shape)"
# how many edits of a crate are tried one after the other: a check reads for ten seconds first, and then takes three to seventeen for each
MOST_TOGETHER = 60
# how a check calls the constants of a type in a method's path
CONSTANTS = r"\b\+\w+(?=::)"
# the crates in which an answer whose two types differ is no word on the contract either: their proofs rest on facts, not on how a body's
# terms look. In the others a wrong meaning and another shape of the right one can't be told apart by that yet
STRICT = {"external_calibration"}


class Shared:
    """What the parts of a crate have in common: the first of them that needs it finds it, and the others wait for that."""

    def __init__(self):
        self.lock, self.found = Lock(), None

    def get(self, find):
        with self.lock:
            if self.found is None:
                self.found = find()
            return self.found


class Tried:
    """A crate, or a part of it that is tried beside its other parts, and how it is called; the names of its edits that are judged, how many
    of them an earlier run did, the sum of its sources as this began, and what is said of each edit; and the functions of the crate."""

    def __init__(self, name, files, label=None, functions=None):
        self.name, self.files, self.label, self.functions = name, files, label or name, functions or Shared()
        self.copy, self.began, self.kept, self.first, self.verdicts = None, 0, 0, "", {}

    def say(self, words):
        print(f"{self.label}: {words}, {time.monotonic() - self.began:.0f} s", flush=True)


def parts_of(name, files):
    """The edits of a crate in parts that take about as long as each other, few if there are few."""
    functions, count = Shared(), -(-len(files) // MOST_TOGETHER)
    return [Tried(name, files[it::count], f"{name}.{it + 1}" if count > 1 else name, functions) for it in range(count)]


def path_of(functions, path, function):
    """What a check calls a function; None if that is not certain."""
    modules = [it for it in path.removeprefix("src/").removesuffix(".rt").split("/") if it not in ("lib", "main")]
    if not function.owner:
        exact = "::".join([*modules, function.name])
        return exact if exact in functions else None
    last = f"{function.owner[0].upper()}{function.owner[1:]}{function.trait}::{function.name}"
    exact = "::".join([*modules, last])
    # a method stands under its type's module, which may be another file's, the constants of its type after that's name, as Image+LARGE, and
    # the types of its trait after that's name, as PageFromU8
    found = [exact] if exact in functions else [it for it in functions if f"::{re.sub(CONSTANTS, '', it)}".endswith(f"::{last}")]
    if not found and function.trait:
        owner, name = last.split("::")
        found = [it for it in functions if re.search(rf"(^|::){owner}[A-Z]\w*::{name}$", it)]
    return found[0] if len(found) == 1 else None


def judges_of(crate, edit):
    """The functions that an edit changes and that judge it, by their paths, each with its file and its place there; None in place of an
    uncertain path."""
    changed = sorted({*edit.bodies, *edit.values})
    places = [(path, place, functions_of(read(f"{crate.copy.folder}/{path}"))[place]) for path, place in changed]
    return [(path_of(crate.copy.functions, path, it), path, place) for path, place, it in places]


def is_own(path, function):
    """Whether a path that the check names is the function's, or that of a closure in it."""
    module, _, last = path.partition("::fn::")
    return path == function or bool(last) and f"{module}::{last}::".startswith(f"{function}::")


def errors_of(said, function, path, lines):
    """The errors in the function's answers, and the errors and open goals at its lines."""
    answers = re.findall(r"^\./proofs/([\w/+]+)/\w+\.antt:\d+:\d+: (error.*)$", said, re.M)
    at = re.findall(rf"^(?:note: )?(?:\./)?{re.escape(path)}:(\d+):\d+: (error.*|it is not proved.*)$", said, re.M)
    return [words for it, words in answers if is_own(it.replace("/", "::"), function)] + [words for it, words in at if int(it) in lines]


def is_of_name(error):
    """Whether an error only says that what a proof names is not there, that a term of it has another shape, or that it rests on such a
    proof."""
    words = rf"\bhas no\b|is not in scope|was not admitted|which was rejected|{re.escape(SHAPE)}$"
    return bool(re.search(words, re.sub(r"`[^`]*`", "", error)))


def with_shapes(said, folder_of):
    """What a check says, with a word at each error of an answer written by hand by which only a term of it has another shape than what it
    has to prove: that the two types differ. Not so at `refl`, which names no term, so both sides were computed. A function tells where
    the answers are, by what the check calls their folder."""

    def marked(error):
        folder, name, line, column = error.groups()
        text = read(f"{folder_of(folder)}/{name}").split("\n")[int(line) - 1][int(column) - 1:]
        return error[0] if re.match(r"refl\b", text) else f"{error[0]} {SHAPE}"

    place = r"^\./proofs/([\w/+]+)/((?:Answers|Invariants)\.antt):(\d+):(\d+): error: "
    differ = r"(?:\bthe two types (?:first )?differ\b|\bexpected type\b.*\bbut this has type\b)"
    return re.sub(rf"{place}.*{differ}.*$", marked, said, flags=re.M)


def verdict_of(said, function, path, lines, is_alone):
    """What a check says of one function, whose file and lines there are given. Tried alone, all that is wrong is due to its edit."""
    told = [words for name, words in re.findall(r"^fn \w+::(\S+): (.*)$", said, re.M) if is_own(name, function)]
    if not told:
        return WAITS
    if all(re.match(r"no holes|depends on a hole", it) for it in told):
        return PROVED
    every = r"^(?:note: )?(?:\./)?(?:proofs|src)/\S+: (error.*|it is not proved.*)$"
    errors = re.findall(every, said, re.M) if is_alone else errors_of(said, function, path, lines)
    if any("` did not prove" in it for it in told) or not all(map(is_of_name, errors)):
        return REFUSED
    if errors:
        return NAMES if is_alone else WAITS
    return REFUSED if any(it == "not proved" or is_alone and it.startswith("not proved") for it in told) else WAITS


class Round:
    """Edits that are tried under one check. Of those that change the same function the first changes it in its place, and each other a
    twin of it: the same function once more, under another name, which the same answers have to prove. A twin reads the same constants, so
    a function whose constants are changed has none."""

    def __init__(self, crate):
        self.crate, self.edits, self.bodies, self.values, self.twins = crate, [], {}, {}, {}

    def take(self, edit):
        """Takes an edit if it can be tried with those that are taken."""
        if not {*edit.bodies, *edit.values} & {*self.bodies, *self.values}:
            taken = True
            self.bodies.update(edit.bodies)
            self.values.update(edit.values)
        else:
            taken = self.take_twin(edit)
        if taken:
            self.edits.append(edit)
        return taken

    def take_twin(self, edit):
        """Takes an edit of one function that may have a twin: one with a proof of its own that is of no trait and does not call itself."""
        if len(edit.bodies) != 1 or edit.values or edit.bodies.keys() & self.values.keys():
            return False
        [((path, place), body)] = edit.bodies.items()
        text = read(f"{self.crate.copy.folder}/{path}")
        function = functions_of(text)[place]
        if function.trait or re.search(rf"(?<!::)\b(?:[Ss]elf::)?{function.name}\(", text[function.begin:function.end]):
            return False
        if not self.crate.copy.has_own_proof(judges_of(self.crate, edit)[0][0]):
            return False
        self.twins.setdefault((path, place), []).append((edit, body))
        return True

    def texts(self, is_right):
        """The crate's files with what these edits change, or with the twins that they need alone."""
        paths = {it for it, _ in [*self.bodies, *self.values, *self.twins]}
        return {path: self.text(path, read(f"{self.crate.copy.folder}/{path}"), is_right) for path in paths}

    def text(self, path, text, is_right):
        """A file, whose text is given, with what these edits change in it, or with the twins that they need alone."""
        functions, changes = functions_of(text), []
        for place, function in enumerate(functions):
            own = text[function.begin:function.end]
            body = own if is_right else self.bodies.get((path, place), own)
            twins = [
                twin_of(text, function, twin_name(function.name, number), own if is_right else wrong)
                for number, (_, wrong) in enumerate(self.twins.get((path, place), []))
            ]
            changes.append((function.begin, function.end, body + "".join(twins)))
        for it in [] if is_right else constants_of(text, functions):
            changes.append((it.begin, it.end, self.values.get((path, it.place), {}).get(it.name, text[it.begin:it.end])))
        for begin, end, new in sorted(changes, reverse=True):
            text = text[:begin] + new + text[end:]
        return text

    def judges(self, edit):
        """The functions that judge an edit, by their paths, each with its file and the name and the place that it has there."""
        judges = judges_of(self.crate, edit)
        for (path, place), twins in self.twins.items():
            number = next((it for it, (twin, _) in enumerate(twins) if twin is edit), None)
            if number is not None:
                name = judges[0][0]
                return [(twin_name(name, number), path, place, number + 1)]
        return [(name, path, place, 0) for name, path, place in judges]

    def place_in(self, path, place, number):
        """Which function of a changed file it is, since twins stand after the function whose twins they are."""
        return place + number + sum(len(them) for (file, of), them in self.twins.items() if file == path and of < place)

    def said(self, texts):
        """What a check says of the functions that judge these edits, with these files."""
        twins = {name: judges_of(self.crate, it)[0][0] for it in self.edits for name, _, _, number in self.judges(it) if number}
        said = self.crate.copy.check(texts, {name for it in self.edits for name, _, _, _ in self.judges(it)}, twins)
        own = {twin.replace("::", "/"): it.replace("::", "/") for twin, it in twins.items()}
        if not said or self.crate.name not in STRICT:
            return said
        return with_shapes(said, lambda it: f"{self.crate.copy.own}/proofs/{own.get(it, it)}")


def twin_name(name, number):
    return f"{name}_twin{number + 1}"


def judged(crate, tried, edit, said, texts):
    """What a check says of an edit: it is refused if one of the functions that judge it is, and proved if all are."""
    verdicts = set()
    for name, path, place, number in tried.judges(edit):
        text = texts.get(path) or read(f"{crate.copy.folder}/{path}")
        function = functions_of(text)[tried.place_in(path, place, number)]
        first, last = (text.count("\n", 0, it) + 1 for it in (function.header, function.end))
        verdicts.add(verdict_of(said, name, path, range(first, last + 1), len(tried.edits) == 1))
    return next((it for it in (REFUSED, NAMES) if it in verdicts), PROVED if verdicts == {PROVED} else WAITS)


def judge_together(crate, edits):
    """Tries edits under one check, or parted if that does not read them, or if one of them can't be tried with the others."""
    tried = Round(crate)
    left = [it for it in edits if not tried.take(it)]
    texts = tried.texts(False)
    said = tried.said(texts)
    if said is not None:
        shown = {it.name: judged(crate, tried, it, said, texts) for it in tried.edits}
    elif len(tried.edits) == 1:
        shown = {edits[0].name: UNREADABLE}
    else:
        half = len(tried.edits) // 2
        shown = {**judge_together(crate, tried.edits[:half]), **judge_together(crate, tried.edits[half:])}
    return {**shown, **(judge_together(crate, left) if left else {})}


def next_round(crate, edits):
    """As many edits as can be tried together."""
    tried = Round(crate)
    return [it for it in edits if tried.take(it)]


def try_in_rounds(crate, edits):
    """Tries edits in rounds; those that a round does not show go into the next, and those that stay so are tried alone."""
    number, alone = 0, []
    while edits or alone:
        number += 1
        chosen = next_round(crate, edits) if edits else alone[:1]
        shown = judge_together(crate, chosen)
        waiting = [it for it in chosen if shown[it.name] == WAITS and len(chosen) > 1]
        crate.verdicts.update({name: it for name, it in shown.items() if it != WAITS or len(chosen) == 1})
        refused = sum(it == REFUSED for it in shown.values())
        crate.say(f"round {number}: {len(chosen)} edits, {refused} refused, {len(waiting)} not shown")
        if len(waiting) == len(chosen):
            alone, waiting = alone + waiting, []
        edits = [it for it in edits if it not in chosen] + waiting
        alone = [it for it in alone if it.name not in crate.verdicts]


def read_edits(crate):
    """The edits of a crate that have no verdict and can be tried."""
    edits = []
    for name in [it for it in crate.files if it not in crate.verdicts]:
        try:
            edit = edit_of(crate.copy.own, f"{crate.copy.own}/wrong-bodies/{name}")
            if any(name is None for name, _, _ in judges_of(crate, edit)):
                raise BadEdit("it is not certain what a check calls a function that judges it")
            edits.append(edit)
        except BadEdit as why:
            crate.verdicts[name] = f"can't be tried: {why}"
    return edits


def try_right(crate, edits):
    """Tries the functions that judge edits, and the twins that these need, as they stand."""
    while edits:
        tried = Round(crate)
        left = [it for it in edits if not tried.take(it)]
        said = tried.said(tried.texts(True)) or ""
        for name in sorted({name for it in tried.edits for name, _, _, _ in tried.judges(it)}):
            found = verdict_of(said, name, "", range(0), False)
            crate.verdicts[name] = REFUSED if found == PROVED else f"is not let through as it stands ({found})"
        edits = left
    crate.say(f"{len(crate.verdicts)} functions as they stand")
