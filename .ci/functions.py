"""The functions of a crate's sources, and the edits that stand beside them, for the scripts of this folder.

An edit is a wrong body: a file NAME.edit with a line 'file: src/PATH' and then pairs of lines 'old: TEXT' and 'new: TEXT', whose old
text stands once in the file; or once in one function, if a line 'in: FUNCTION' stands before. It is in a crate's folder must-fail,
whose edits `rt ci` tries (it doesn't know 'in:'), or in its folder wrong-bodies, whose edits `.ci/wrong_bodies` tries. The value of a
private constant that one function alone reads, such as the rows of a table, is changed as that function's body is."""
import os
import re
from collections import namedtuple

ROOT = os.path.dirname(os.path.dirname(os.path.abspath(__file__)))
FOLDERS = ("must-fail", "wrong-bodies")

HEADER = re.compile(r'^( *)(pub |pub\([a-z]+\) )?(?:const |final |unsafe |extern "C" )*fn (\w+)', re.M)
CONSTANT = re.compile(r"^const (\w+): [^=\n]*= ", re.M)
IMPL = re.compile(r"^impl(?:<[^{]*?>)? (?:([\w:]+)(?:<[^{]*?>)? for )?(\w+)|^(?:pub )?trait (\w+)", re.M)

# What a function is called in its file (its type, its trait if it is of one, and its name), what makes it public, and its place
# in the text: where its header begins, and where its body begins and ends.
Function = namedtuple("Function", "owner trait name public header begin end")

# The value of a constant that one function alone reads: that function's place, and where the value begins and ends.
Constant = namedtuple("Constant", "name place begin end")

# What an edit makes of its files: of each function that it changes, by file and place among the file's functions, the wrong body, or the
# wrong values of constants, by their names.
Edit = namedtuple("Edit", "name bodies values")


class BadEdit(Exception):
    """An edit that can't be tried, and why."""


def read(path):
    with open(path, encoding="utf-8") as file:
        return file.read()


def owner_at(text, place):
    """The type, and the trait, of the `impl` that a place is in; of a trait, its name alone."""
    before = [it for it in IMPL.finditer(text, 0, place)]
    if not before or "\n}\n" in text[before[-1].start():place]:
        return "", ""
    return before[-1][2] or before[-1][3], (before[-1][1] or "").rpartition("::")[2]


def body_of(text, header):
    """Where the body of the function with this header begins and ends. The formatter puts its braces at the header's indentation."""
    line_end = text.index("\n", header.end())
    if text[:line_end].endswith("}"):
        return text.index("{", header.end()), line_end
    indentation = header[1]
    begins = re.compile(rf"^{indentation}(?! )[^\n]*(\{{|\{{\}})$", re.M).search(text, header.start())
    if not begins or begins[1] == "{}":
        return (begins.start(1), begins.end()) if begins else (None, None)
    return begins.start(1), re.compile(rf"^{indentation}\}};?$", re.M).search(text, begins.end()).end()


def functions_of(text):
    """The functions of a file that have a body, in order."""
    found = []
    for header in HEADER.finditer(text):
        begin, end = body_of(text, header)
        following = HEADER.search(text, header.end())
        if begin is not None and not (following and following.start() < begin):
            owner, trait = owner_at(text, header.start()) if header[1] else ("", "")
            found.append(Function(owner, trait, header[3], (header[2] or "").strip(), header.start(), begin, end))
    return found


def without_comments(text):
    """The text with spaces in the place of comments."""
    return re.sub(r"//.*", lambda it: " " * len(it[0]), text)


def constants_in(text):
    """The private constants of a file, in order: the name of each, where that stands, and where the value begins and ends."""
    code = without_comments(text)
    for header in CONSTANT.finditer(code):
        # a value that opens a bracket at its first line's end closes it at a line's beginning
        is_open = code[:code.index("\n", header.end())].endswith(("{", "[", "("))
        end = re.compile(r"^\S*;$" if is_open else r";$", re.M).search(code, header.end()).end() - 1
        yield header[1], header.start(1), header.end(), end


def constants_of(text, functions):
    """The private constants of a file that one of its functions alone reads, in order."""
    code, found = without_comments(text), []
    for name, at, begin, end in constants_in(text):
        places = [it.start() for it in re.finditer(rf"\b{name}\b", code) if it.start() != at]
        readers = {next((place for place, it in enumerate(functions) if it.begin <= read_at < it.end), None) for read_at in places}
        if len(readers) == 1 and None not in readers:
            found.append(Constant(name, readers.pop(), begin, end))
    return found


def outside_of(text, parts):
    """What stands outside of these parts of a text."""
    places = [0, *(place for it in sorted(parts, key=lambda it: it.begin) for place in (it.begin, it.end)), len(text)]
    return [text[places[i]:places[i + 1]] for i in range(0, len(places), 2)]


def twin_of(text, function, name, body):
    """A function once more, with what stands right above it, under another name and with another body."""
    lines, above = text[:function.header].split("\n"), 0
    while re.match(r" *(#\[|///)", lines[-2 - above]):
        above += 1
    begin = function.header - sum(len(it) + 1 for it in lines[len(lines) - 1 - above:-1])
    head = re.sub(rf"\bfn {function.name}\b", f"fn {name}", text[begin:function.begin], count=1)
    return f"\n\n{head}{body}"


def changed_parts(before, after):
    """Of each function whose body differs, by its place, the body, and of each whose constants differ their values, by name; None if
    anything else differs."""
    old, new = functions_of(before), functions_of(after)
    old_constants = constants_of(before, old)
    names = {it.name: it.place for it in old_constants}
    new_constants = [Constant(name, names[name], begin, end) for name, _, begin, end in constants_in(after) if name in names]
    if outside_of(before, [*old, *old_constants]) != outside_of(after, [*new, *new_constants]):
        return None
    bodies, values = {}, {}
    for place, (right, wrong) in enumerate(zip(old, new)):
        if before[right.begin:right.end] != after[wrong.begin:wrong.end]:
            bodies[place] = after[wrong.begin:wrong.end]
    for right, wrong in zip(old_constants, new_constants):
        if before[right.begin:right.end] != after[wrong.begin:wrong.end]:
            values.setdefault(right.place, {})[right.name] = after[wrong.begin:wrong.end]
    return bodies, values


def replaced(text, function, old, new):
    """The text with another in the place of one that stands once in it, or once in the function that is named."""
    begin, end = 0, len(text)
    if function:
        named = [it for it in functions_of(text) if it.name == function]
        if len(named) != 1:
            raise BadEdit(f"{len(named)} functions are named {function}, not one")
        begin, end = named[0].begin, named[0].end
    if text.count(old, begin, end) != 1:
        raise BadEdit(f"'{old.strip()}' stands there {text.count(old, begin, end)} times, not once")
    return text[:begin] + text[begin:end].replace(old, new) + text[end:]


def changed_texts(crate, edit):
    """The files of a crate as an edit leaves them."""
    texts, path, function, old = {}, None, None, None
    for line in edit.split("\n"):
        if line.startswith("file: "):
            path, function = line[6:].strip(), None
            if not path.startswith("src/") or not os.path.isfile(f"{crate}/{path}"):
                raise BadEdit(f"there is no source {path}")
            texts.setdefault(path, read(f"{crate}/{path}"))
        elif line.startswith("in: "):
            function = line[4:].strip()
        elif line.startswith("old: "):
            old = line[5:]
        elif line.startswith("new:"):
            if not path or not old:
                raise BadEdit("a line 'new:' without a file or an old text")
            texts[path], old = replaced(texts[path], function, old, line[4:].removeprefix(" ")), None
    if not texts:
        raise BadEdit("it changes nothing")
    return texts


def edit_of(crate, path):
    """An edit of a crate, read from its file."""
    changed = {file: changed_parts(read(f"{crate}/{file}"), it) for file, it in changed_texts(crate, read(path)).items()}
    if None in changed.values():
        raise BadEdit("it changes more than bodies and constants that one function alone reads")
    bodies, values = ({(file, place): it for file, parts in changed.items() for place, it in parts[kind].items()} for kind in (0, 1))
    if not bodies and not values:
        raise BadEdit("it changes nothing")
    return Edit(os.path.basename(path), bodies, values)


def sources(crate):
    """The source files of a crate."""
    return sorted(os.path.relpath(f"{at}/{it}", crate) for at, _, files in os.walk(f"{crate}/src") for it in files if it.endswith(".rt"))


def edit_files(crate, folder):
    """The files of the edits in a folder of a crate."""
    path = f"{crate}/{folder}"
    return [f"{path}/{it}" for it in sorted(os.listdir(path)) if it.endswith(".edit")] if os.path.isdir(path) else []


def crate_names():
    """The crates, lowest first, with those of this repository that each stands on."""
    lines = [it.partition("#")[0].partition(":") for it in read(f"{ROOT}/crates.txt").split("\n")]
    crates = {name.split()[0]: words.split() for name, _, words in lines if name.strip()}
    return {name: [it for it in words if it in crates] for name, words in crates.items()}
