#!/usr/bin/env python3
"""include/oca.h held against the sources of the library: each prototype, constant and struct; the manual pages made
from it; and the list of public calls that gate/api.py makes.

Usage: header.py

The step is tried itself: a header, page or list that is wrong in one place must be found. The last line is 'N passed, M
failed'."""
import re
import sys
import tempfile
from collections import Counter
from pathlib import Path

from checks import Checks
from tables import TOP, data

sys.path.insert(0, str(TOP / "gate"))
import api
import reference

DATA = data("header")
STRUCTS = {name: f"struct {of}" for name, of in DATA.structs.items()}
NUMBERS = {"bool": "bool", "usize": "size_t", **{f"{sign}{bits}": f"{'u' if sign == 'u' else ''}int{bits}_t" for sign in "iu" for bits in (8, 16, 32, 64)}}


def source(form):
    """The texts of the files of this form, below the repository."""
    return "\n".join(file.read_text() for file in sorted(TOP.glob(form)))


def in_c(call, name, kind):
    """The header's parameters for one of the library's: a slice is a pointer and a length."""
    name = DATA.renamed.get(call, {}).get(name, name)
    lent, is_slice, inner = re.fullmatch(r"(&(?:mut )?)?(\[)?(\w+)\]?", kind).groups()
    if inner in DATA.handles:
        return [(f"struct oca_{DATA.handles[inner]} *", DATA.handles[inner])]
    of = NUMBERS.get(inner) or STRUCTS[inner]
    if not lent:
        return [(of, name)]
    pointer = (f"{'' if lent == '&mut ' else 'const '}{of} *", name)
    return [pointer, ("size_t", DATA.lengths.get(name, f"{name}_len"))] if is_slice else [pointer]


def exported():
    """The calls of Rattle and of c/, with the parameters and results that the header must have."""
    found = {}
    for name, given, result in re.findall(r'pub extern "C" fn (\w+)\(([^)]*)\)\s*(?:-> (\w+))?', source("crates/oca_c/src/*.rt")):
        pairs = [re.fullmatch(r"(\w+): (.+)", it.strip()).groups() for it in given.split(",") if it.strip()]
        answers = "uint32_t" if name in ("oca_version", "oca_class_with") else {"u32": "enum oca_result"}.get(result, "void")
        found[name] = ([c for of, kind in pairs if kind != "Global" for c in in_c(name, of, kind)], answers)
    return found | prototypes(re.sub(r"\) \{$", ");", source("c/*.c"), flags=re.M))


def prototypes(header):
    found = {}
    for result, name, given in re.findall(r"^((?:enum|struct) oca_\w+|uint(?:32|64)_t|void) (oca_\w+)\(([^)]*)\)(?: OCA_\w+)?;", header, re.M):
        words = [re.fullmatch(r"(.*?[ *])(\w+)", it.strip()).groups() for it in given.split(",") if it.strip() not in ("", "void")]
        found[name] = ([(of.strip().replace("* ", "*"), it) for of, it in words], result)
    return found


def body(text, what, end=r"\}"):
    """What stands between the braces behind these words."""
    return re.search(rf"{what} \{{(.*?){end}", text, re.S)[1]


def numbered(header, name):
    said = body(re.sub(r"/\*.*?\*/", "", header, flags=re.S), f"enum {name}")
    return {word: int(number, 0) for word, number in re.findall(r"(\w+) = (\w+)", said)}


def fields(header, name):
    lines = filter(None, map(str.strip, body(header, f"struct {name}").split(";")))
    read = [re.fullmatch(r"((?:const )?(?:struct )?\w+) (.*)", line).groups() for line in lines]
    return [(it.strip(), of) for of, names in read for it in names.split(",")]


def results(header):
    return {word for name in ("oca_result", "oca_store_result", "oca_socket_result") for word in numbered(header, name)}


def constant(prefix, name):
    """A variant's name as a constant's: NoSuchBlock as OCA_NO_SUCH_BLOCK, or what the header calls it."""
    word = prefix + re.sub(r"(?<=[a-z])(?=[A-Z])", "_", name).upper()
    return DATA.constants.get(word, word)


def variants_of(file, kind):
    return body(source(file), f"pub enum {kind}", r"\n\}")


def constants(prefix, pairs):
    return {constant(prefix, name): int(number) for name, number in pairs}


def methods():
    rows = re.search(r"fn place_of\(.*?\n\}", source("crates/oca_types/src/class.rt"), re.S)[0]
    read = re.findall(r"((?:Method::\w+[ |\n]*)+) => \((\d+), (\d+)\)", rows)
    numbers = [(name, int(level) << 16 | int(index)) for names, level, index in read for name in re.findall(r"Method::(\w+)", names)]
    return constants("OCA_", numbers)


def struct(name):
    said = body(source("crates/oca_calls/src/*.rt"), f"pub struct {name}", r"\n\}")
    found = re.findall(r"pub (\w+): \[?(.+?)(?:; (\d+)\])?,", said)
    return [(f"{field}[{size}]" if size else field, NUMBERS.get(kind) or STRUCTS[kind]) for field, kind, size in found]


def texts():
    """What the header says of each result that is a fault of a call behind, and of each status."""
    said = {}
    for file, kind in DATA.faults:
        said.update({constant("OCA_", of): it for it, of in re.findall(r'#\[error\("([^"{]*)"\)\]\s*(\w+)', variants_of(file, kind))})
        said.update({constant("OCA_", of): it for of, it in re.findall(rf'    {kind}::(\w+) => "([^"]*)",', source(file))})
    return said


def number_in(text, form):
    return int(re.search(form, text, re.M)[1].replace("_", ""), 0)


def compared(header):
    """What is compared besides prototypes: by its name what the header has, and what it must have. Of results the texts are those that `texts` knows, or
    all where they are not those of the results that its enums have."""
    there, said = dict(re.findall(r'case (OCA_\w+): return "([^"]*)";', header)), texts()
    enums = {
        **{name: constants(of, re.findall(rf"{kind}::(\w+)(?:\(\w+\))? => (?:\(|\[\w+, \w+, )?(\d+)", source(file))) for name, file, kind, of in DATA.arms},
        **{name: constants(of, re.findall(r"\n    (\w+) = (\d+),", variants_of(file, kind))) for name, file, kind, of in DATA.variants},
        "oca_method": methods(),
    }
    words = source("crates/oca_calls/src/words.rt")
    verdict = re.search(r"\} => \[0, (.*?)\]", words)[1].split(", ")
    object_words = re.findall(r"^        (?:object\.|)(\w+)(?:\.0|\(object\.class\)|\.len\(\) as u32),", words, re.M)
    effect = re.search(r"\[target, (\w+), 1, u32::from\((\w+)\.", words)
    structs = {
        "oca_effect": [(name, "uint32_t") for name in ["ono", effect[1], "outcome", effect[2]]],
        "oca_verdict": [(name, "uint32_t") for name in ["kind", *verdict[:4], "fault", "at"]],
        "oca_object": [(name, "uint32_t") for name in [*object_words[:2], "class_number", "role_size"]] + [("role[64]", "uint8_t")],
        **{of: struct(name) for name, of in DATA.structs.items()},
    }
    most = {word: int(number) for word, number in re.findall(r"(OCA_MOST_\w+) = (\d+)", header)}
    return {
        **{f"enum {name}": (numbered(header, name), of) for name, of in enums.items()},
        **{f"struct {name}": (fields(header, name), of) for name, of in structs.items()},
        "size of oca_spec": (number_in(header, r"sizeof\(struct oca_spec\) == (\d+)"),
                             number_in(source("crates/oca_calls/src/spec_words.rt"), r"const SPEC_SIZE: u32 = (\d+);")),
        "status texts": (re.findall(r'"(\w+)"', re.search(r"oca_status_text.*?\};", header, re.S)[0]),
                         re.findall(r'Status::\w+ => "(\w+)"', source("crates/oca_types/src/status.rt"))),
        "result texts": ({word: there.get(word) for word in said} if there.keys() == results(header) else there, said),
        "most": (most, {of: number_in(source(file), rf"const {name}: usize = (\d+);") for of, file, name in DATA.most}),
        "version": (number_in(header, r"#define OCA_VERSION (0x[0-9a-fA-F]+)u"),
                    number_in(source("crates/oca_c/src/version.rt"), r"^    (0x[0-9A-Fa-f_]+)$")),
    }


def differences(header):
    """How many things were compared, and what differs, a line each."""
    library, there, others = exported(), prototypes(header), compared(header)
    pairs = {name: (there[name], library[name]) for name in sorted(library.keys() & there.keys())} | others
    wrong = [f"{name}: in one of both alone" for name in sorted(library.keys() ^ there.keys())]
    wrong += [f"{name}: the header has {stated}, the library {of}" for name, (stated, of) in pairs.items() if stated != of]
    return len(library) + sum(len(of) if isinstance(of, (dict, list)) else 1 for _, of in others.values()), wrong


def comments(header):
    """The words of the comment before each call in its paragraph: an empty line ends it."""
    found, said, body_of_it = {}, [], header[header.index("#define OCA_H"):]
    for comment, name in re.findall(r"^/\*(.*?)\*/|^\w[\w ]*[ *](oca_\w+)\(|^[ \t]*$", body_of_it, re.M | re.S):
        if name:
            found[name] = said
        else:
            said = words(comment)
    return found


def part(page, heading):
    return page.partition(f"\n.SH {heading}\n")[2].split("\n.SH")[0]


def said_in(page, heading):
    """The words of a part of a page, without its macros."""
    return words(re.sub(r"^\.[A-Z]{2}.*$", "", part(page, heading), flags=re.M))


def words(text):
    return re.findall(r"\w+", text)


def page_faults(name, page, header, comment, title):
    declared = re.search(rf"^(?:static inline )?[\w *]+?[ *]{name}\([^)]*\)", header, re.M)[0]
    types = set(re.findall(r"((?:struct|enum) oca_\w+)", declared)) - set(reference.NAMED_ANYWAY)
    about = re.fullmatch(rf"{name} \\- (.+)", part(page, "NAME"))
    about = words(about[1]) if about else []
    answers = set(re.findall(r"\bOCA_\w+", part(page, "RETURN VALUE")))
    tried = [
        (f"is not titled by its name and {title}", page.startswith(f".TH {name} 3 {title}\n")),
        ("does not say in a line what the call does", about and about == comment[:len(about)]),
        ("does not have its declaration", f" {' '.join(words(declared))} " in f" {' '.join(words(part(page, 'SYNOPSIS')))} "),
        ("does not say what the header says", comment and said_in(page, "DESCRIPTION")[:len(comment)] == comment),
        ("does not show what its declaration names", all(f"{it} {{" in part(page, "SYNOPSIS") for it in types)),
        ("does not say what it can answer", answers == set(reference.answers_of(name)) and bool(answers) == bool(re.search(f"enum oca_((store|socket)_)?result {name}", declared))),
        ("does not say what all calls want",
         said_in(page, "NOTES") == words(header[:header.index("#ifndef OCA_H")])),
        ("says what the call returns within another paragraph", not re.search(r"\. Returns OCA_|^[^.].*\. OCA_[A-Z_]+ if", part(page, "DESCRIPTION"), re.M)),
        ("says what all calls want in one paragraph", part(page, "NOTES").count("\n.IP ") > 5),
    ]
    return [f"{name}: its page {what}" for what, is_well in tried if not is_well]


def pages_wrong(header, texts):
    """How much of the manual pages was looked at, and what is wrong with them."""
    inline = set(re.findall(r"^static inline [\w ]+?[ *](oca_\w+)\(", header, re.M))
    calls = prototypes(header).keys() | inline - reference.HELPERS
    version = re.search(r"^Version: (.+)$", (TOP / "include/oca.pc.in").read_text(), re.M)[1]
    day = re.search(rf"^## \[{re.escape(version)}\] - ([\d-]+)$", (TOP / "CHANGELOG.md").read_text(), re.M)[1]
    said = comments(header)
    wrong = [f"{name}: a page in one of both alone" for name in sorted(calls ^ texts.keys())]
    unsaid = results(header) - {it for name in calls for it in reference.answers_of(name)}
    wrong += [f"{it}: no call answers with it" for it in sorted(unsaid)]
    for name in sorted(calls & texts.keys()):
        wrong += page_faults(name, texts[name], header, said[name], f'{day} "oca {version}" "OCA (AES70) for C"')
    return 10 * len(calls), wrong


def list_wrong(header, made):
    """How many rows the list of public calls has, and what is wrong with it. It has each library and each call of the header once, and each row
    has a sentence."""
    rows = re.findall(r"(?m)^\| (`.*`) \| (.*) \|$", made)
    wrong = [f"the list of public calls lacks {it}" for it in [*api.LIBRARIES, "oca.h"] if made.count(f"\n## `{it}`\n") != 1]
    inline = re.findall(r"^static inline [\w ]+?[ *](oca_\w+)\(", header, re.M)
    called = Counter(re.findall(r"\b(oca_\w+)\(", "\n".join(item for item, _ in rows)))
    wrong += [f"the list of public calls has {it} {called[it]} times" for it in {*prototypes(header), *inline} - reference.HELPERS if called[it] != 1]
    wrong += [f"the list of public calls says nothing of {item}" for item, said in rows if not re.search(r"\w \w.*\.$", said)]
    return len(rows), wrong + [f"the list of public calls has {item} twice" for (item, _), count in Counter(rows).items() if count > 1]


def main():
    header, made, checks = (TOP / "include/oca.h").read_text(), api.made(), Checks()
    with tempfile.TemporaryDirectory() as place:
        reference.write(Path(place))
        texts = {file.stem: file.read_text() for file in Path(place).glob("*.3")}
    of_pages = pages_wrong(header, texts)
    for count, wrong in (differences(header), of_pages, list_wrong(header, made)):
        checks.all_but(count, [f"include/oca.h: {line}" for line in wrong])
    for there, other in DATA.wrong:
        checks.finds("", header, there, other, lambda wrong: differences(wrong)[1])
    for name, there, other in DATA.wrong_pages:
        changed = texts | {name: re.sub(there, other, texts.get(name, ""), count=1)}
        is_found = changed != texts and len(pages_wrong(header, changed)[1]) > len(of_pages[1])
        checks.expect(f"not found: {other!r} in place of {there!r} in the page of {name}", is_found)
    for there, other in DATA.wrong_lists:
        checks.finds(" in the list", made, there, other, lambda wrong: list_wrong(header, wrong)[1])
    return checks.verdict()


if __name__ == "__main__":
    sys.exit(main())
