"""Checks of some functions of a crate, in a copy of it, with all its other functions taken by their contracts.

A function is taken by its contract if the proof that it meets it is left open: a file Proof.antt with a hole. What the check then says
of the functions that it is asked for rests on no other body. It stands over the libraries as `rt ci` or `rt lib` built them."""
import json
import os
import re
import shutil
import subprocess
from functions import ROOT, crate_names, read

KIT = os.path.dirname(subprocess.run(["rt", "doc"], capture_output=True, text=True, check=True).stdout.strip())
PARTS = ("src", "specs", "proofs")
# the checks that are under way
RUNNING = set()
PROOF_FILES = ("Invariants.antt", "Answers.antt", "Proof.antt")
# where a check keeps what it has checked, for the next one; and where it can't: then it doesn't prove a second time what failed, to offer
# the lines of proof files, which nobody reads here and which takes a sixth of a round. Over a library that was built over kept work, as by
# `rt lib`, a check that can keep nothing can't take the library's modules
KEPT, NOWHERE = "out/incremental", "/proc/nowhere"
OPEN_PROOF = """use Rattle.{crate}.proofs.{path}.Statement.{{statement}}

pub {name}_spec : {{M : Type 1}} → statement M
{name}_spec = ?
"""


class CheckFailed(Exception):
    """A check that says nothing of any edit, and what it printed."""


def below(name):
    """The repository's crates that one stands on, and those that these stand on, lowest first."""
    crates = crate_names()
    wanted = {name}
    for it in reversed(crates):
        wanted |= set(crates[it]) if it in wanted else set()
    return [it for it in crates if it in wanted and it != name]


def built_library(name):
    return f"{ROOT}/crates/{name}/out/rlib/{name}.rlib"


class Libraries:
    """The crates' libraries as they were built, in a folder of their own, since `rt ci` puts others in their place when it ends."""

    def __init__(self, folder):
        self.folder = folder
        os.mkdir(folder)

    def path(self, name):
        return f"{self.folder}/{name}.rlib"

    def keep(self, name):
        """Keeps a library, by links, if there is one."""
        if os.path.isdir(built_library(name)) and not os.path.isdir(self.path(name)):
            shutil.copytree(built_library(name), self.path(name), copy_function=link)

    def is_over_kept(self, name):
        """Whether a library was built over kept work."""
        return re.search("^incremental$", read(f"{self.path(name)}/format"), re.M)

    def functions(self, name):
        """The functions of a library, by their paths, as it has them for what is linked; none of a crate that has no library."""
        file = f"{self.path(name)}/toolchain/mir.json"
        return {it[0].removeprefix(f"{name}::") for it in json.loads(read(file))} if os.path.isfile(file) else set()


def link(file, to):
    """Makes a link to a file, or a copy if that can't be."""
    try:
        os.link(file, to)
    except OSError:
        shutil.copy2(file, to)


def check_of(name, libraries):
    """The check of a crate as `rt check` makes it, but over these libraries."""
    head, used = re.search(rf"^{name}( staticlib)?:(.*)$", read(f"{ROOT}/crates.txt"), re.M).groups()
    own = crate_names()[name]
    words = [f"{KIT}/bin/rattle", "check", "--crate-name", name, "src/lib.rt", "-L", f"dependency={KIT}/rlibs"]
    for it in ["std", *(it for it in used.split() if it not in own)]:
        words += ["--extern", f"{it}={KIT}/rlibs/{it}.rlib"]
    for it in own:
        words += ["--extern", f"{it}={libraries.path(it)}"]
    words += ["-L", f"dependency={libraries.folder}"]
    words += ["--crate-type", "staticlib"] if head else []
    words += ["--antt-project", f"{KIT}/rattle/logic/antt-project.json", "--logic-built", f"{KIT}/logic_built"]
    return [*words, "--links", f"{name}="]


def is_newer(path, made):
    """Whether a file or a folder, or anything in it, was changed after that."""
    return os.path.getmtime(path) > made or os.path.isdir(path) and any(is_newer(f"{path}/{it}", made) for it in os.listdir(path))


def is_built(name):
    """Whether a library stands as it was built of its sources."""
    if not os.path.isdir(built_library(name)):
        return False
    made = os.path.getmtime(built_library(name))
    return not any(is_newer(f"{ROOT}/crates/{name}/{it}", made) for it in PARTS if os.path.isdir(f"{ROOT}/crates/{name}/{it}"))


def build_libraries(names):
    """Builds the libraries that these crates stand on, unless all stand as they were built."""
    wanted = [it for it in crate_names() if any(it in below(name) for name in names)]
    for it in wanted if not all(map(is_built, wanted)) else []:
        subprocess.run(["rt", "lib"], cwd=f"{ROOT}/crates/{it}", stdout=subprocess.DEVNULL, check=True)


def functions_proved(name, said):
    """The functions of a crate, by their paths, if a check said that all are proved."""
    told = dict(re.findall(rf"^fn {name}::(\S+): (.*)$", said, re.M))
    wrong = [path for path, words in told.items() if not words.startswith("proved")]
    if not told or wrong:
        raise CheckFailed(f"{name} is not proved: {' '.join(wrong[:5]) or said[-600:]}")
    return set(told)


def renamed(proof, function, twin):
    """A function's proof as that of its twin."""
    proof = proof.replace(f".proofs.{function.replace('::', '.')}.", f".proofs.{twin.replace('::', '.')}.")
    return re.sub(rf"\b{function.rpartition('::')[2]}_spec\b", f"{twin.rpartition('::')[2]}_spec", proof)


class Copy:
    """Two copies of a crate in a scratch folder: its own files, which stay, and those that are checked; and its functions by the paths that
    a check has for them."""

    def __init__(self, name, top, libraries):
        self.name, self.functions, self.libraries, self.checks = name, set(), libraries, 0
        self.own, self.folder = f"{top}/own", f"{top}/tried"
        for it in (*PARTS, "wrong-bodies"):
            if os.path.isdir(f"{ROOT}/crates/{name}/{it}"):
                shutil.copytree(f"{ROOT}/crates/{name}/{it}", f"{self.own}/{it}")
        for it in PARTS:
            if os.path.isdir(f"{self.own}/{it}"):
                shutil.copytree(f"{self.own}/{it}", f"{self.folder}/{it}")
        os.makedirs(f"{self.folder}/out")

    def take_by_contracts(self, functions):
        """Takes all functions of the crate, whose paths are given, by their contracts."""
        self.functions = functions
        for it in functions:
            self.leave_open(it)

    def has_own_proof(self, function):
        """Whether a function has a proof of its own; what stands in one, such as a closure, is read with it, and what drops values, or calls
        itself, is proved with what it calls."""
        module, _, name = function.replace("::", "/").rpartition("/")
        return not re.search(r"fn::|\+", function) and not os.path.isdir(f"{self.folder}/proofs/{module}/+{name}")

    def leave_open(self, function):
        """Takes a function by its contract, if it has a proof of its own."""
        if not self.has_own_proof(function):
            return
        folder = f"{self.folder}/proofs/{function.replace('::', '/')}"
        os.makedirs(folder, exist_ok=True)
        self.remove_proof(folder)
        with open(f"{folder}/Proof.antt", "w", encoding="utf-8") as file:
            file.write(OPEN_PROOF.format(crate=self.name, path=function.replace("::", "."), name=function.rpartition("::")[2]))

    def give_proof(self, function, of):
        """Has a function proved as the crate proves it, or a twin as the crate proves the function whose twin it is."""
        if not self.has_own_proof(of):
            return
        place, folder = f"{self.own}/proofs/{of.replace('::', '/')}", f"{self.folder}/proofs/{function.replace('::', '/')}"
        self.remove_proof(folder)
        for it in PROOF_FILES:
            if os.path.isfile(f"{place}/{it}"):
                os.makedirs(folder, exist_ok=True)
                with open(f"{folder}/{it}", "w", encoding="utf-8") as file:
                    file.write(renamed(read(f"{place}/{it}"), of, function))

    @staticmethod
    def remove_proof(folder):
        for it in PROOF_FILES:
            if os.path.isfile(f"{folder}/{it}"):
                os.remove(f"{folder}/{it}")

    def write(self, texts):
        for path, text in texts.items():
            with open(f"{self.folder}/{path}", "w", encoding="utf-8") as file:
                file.write(text)

    def check(self, texts, functions, twins):
        """What a check says of these functions with these files in the place of the crate's own; None if it does not read them. Of a twin
        it is given whose twin it is."""
        for it in functions:
            self.give_proof(it, twins.get(it, it))
        own = {path: read(f"{self.folder}/{path}") for path in texts}
        self.write(texts)
        # most crates have one round; those that follow it are of few edits, over what the first of them keeps
        keeps = self.checks or any(map(self.libraries.is_over_kept, below(self.name)))
        said = self.said(["--allow-holes", *(word for it in sorted(functions) for word in ("--only", it))], KEPT if keeps else NOWHERE)
        self.write(own)
        for it in functions - twins.keys():
            self.leave_open(it)
        for it in twins:
            shutil.rmtree(f"{self.folder}/proofs/{it.replace('::', '/')}", ignore_errors=True)
        if re.search(r"^(\./)?(src|specs)/\S+:\d+:\d+: error(\[|: [^`])", said, re.M):
            return None
        broken = re.search(r"^\./proofs/\S+/Proof\.antt:\d+:\d+: error.*$", said, re.M)
        if broken or not re.search(r"^only=\d+ ", said, re.M):
            raise CheckFailed(broken[0] if broken else said[-1500:])
        return said

    def said(self, words, place=KEPT):
        """What a check with these words prints, which keeps what it checks in this place. One that is killed, most likely for memory, is made
        once more."""
        words = [*check_of(self.name, self.libraries), "--incremental", place, "--jobs", "1", *words]
        for _ in range(2):
            with subprocess.Popen(words, cwd=self.folder, stdout=subprocess.PIPE, stderr=subprocess.STDOUT, text=True) as ran:
                RUNNING.add(ran)
                said = ran.communicate()[0]
                RUNNING.discard(ran)
            self.checks += 1
            if ran.returncode >= 0:
                break
        return said
