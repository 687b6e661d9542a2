"""Tests in C of the library for C, made of rows of data. Other tools use it; it has no `main`.

A file tools/rows/NAME_calls.toml has tables `part`, or lists of the cases of a switch (see `cases`). A `part` is a function in C: its `name`, what it
`takes` and `gives`, what it `has` (declarations), and its `rows`; with a word `when` it is empty unless this word is defined. A row is

    [WHAT, CALL, RESULT]              a call of the library, and what it answers, without OCA_
    [WHAT, CALL, RESULT, .., HOLDS]   the same, further calls, each with what it answers, and what holds behind them
    [WHAT, VALUE, WANTED]             a value in C, and what it must be
    [WHAT, HOLDS]                     what must hold, in C
    DONE                              what is done in between: a call, or a statement in C
    {for = HEAD, rows = [..]}         rows that are gone through so often; `if`, `while` and `switch` are alike

WHAT is a text, or behind `= ` a value in C. A call is its name without oca_ and a word for each argument; where a pointer is to be given, the word is
what it points to. Where bytes or items are given with their number, a word is a text in quotes, an array, or one of them and the number with a
colon between. A word that holds blanks stands in parentheses."""
import re
import shutil
import subprocess
from pathlib import Path

from checks import over_the_layer
from tables import data

HERE = Path(__file__).resolve().parent
LANGUAGES = {"c11": ["cc", "-std=c11"], "c++17": ["c++", "-x", "c++", "-std=c++17"]}
COMPILERS = LANGUAGES | {"arm": ["aarch64-linux-gnu-gcc", "-std=c11"]}
STRICT = ["-O2", "-Wall", "-Wextra", "-Werror"]
SANITIZED = ["-O1", "-g", "-fsanitize=address,undefined", "-fno-sanitize-recover=all"]
WORD = re.compile(r'(?:"(?:\\.|[^"\\])*"|\((?:[^()]|\((?:[^()]|\([^()]*\))*\))*\)|[^\s"()])+')
CALL = re.compile(r"^(?:static inline )?((?:const |enum |struct )*\w+ \*?)oca_(\w+)\(([^()]*)\)", re.MULTILINE)
HEADER = re.sub(r"/\*.*?\*/", "", (HERE.parent / "include/oca.h").read_text(), flags=re.DOTALL)
CALLS = {name: (answers, [re.sub(r"\w+$", "", it.strip()) for it in takes.split(",") if it != "void"])
         for answers, name, takes in CALL.findall(HEADER)}  # what each gives and takes
A_TEXT = r'"(?:\\.|[^"\\])*"'
ALONE = re.compile(r"struct oca_(device|link|socket|server|store|panel|flight) \*")  # a pointer to one, whatever number stands behind it


def ran(*words, **how):
    return subprocess.run([*map(str, words)], **{"capture_output": True, "text": True, "timeout": 300, **over_the_layer(how)})


def compiled(program, *words, language="c11"):
    """A program, strictly compiled."""
    subprocess.run([*COMPILERS[language], *STRICT, "-o", program, *words], check=True)
    return program


def with_number(word, kind):
    """The two arguments that an array or a text is, and the number of its items."""
    name, number = re.fullmatch(rf"({A_TEXT}|[^:]*)(?::(.*))?", word).groups()
    number = number and re.sub(r"^\((.*)\)$", r"\1", number)
    if name[0] == '"':
        number = number or str(len(re.sub(r"\\(x[0-9a-f]{2}|[0-7]{1,3}|.)", "-", name[1:-1]).encode()))
        return name if "void" in kind else f"text({name})", number
    return name, number or f"sizeof {name}"


def called(said, pointers, result=""):
    """The call that these words are, in C; None where they are none."""
    name, *words = WORD.findall(said)
    answers, takes = CALLS.get(name, ("", ()))
    given = []
    for word in words if takes else ():
        kind, behind = [*takes, ""][len(given):len(given) + 2]
        if "*" in kind and behind == "size_t " and not ALONE.match(kind):
            given += with_number(word, kind)
        elif "*" in kind and kind != "const char *":
            given.append(word if word in pointers or word == "NULL" else f"&{word}")
        else:
            given.append(word[1:-1] if re.fullmatch(r"\([^()]* [^()]*\)", word) else word)
    if name in CALLS and len(given) == len(takes):
        return f"oca_{name}({', '.join(given)})" + (".asked" if answers == "struct oca_outcome " and str(result)[:6] == "ASKED_" else "")
    return None


def in_c(wanted):
    return f"OCA_{wanted}" if re.fullmatch("[A-Z][A-Z0-9_]+", str(wanted)) else str(wanted)


def check(row, pointers):
    what, *items = row
    what = what[2:] if what[:2] == "= " else f'"{what}"'
    if len(items) == 2:
        return f"same({what}, {called(items[0], pointers, items[1]) or items[0]}, {in_c(items[1])});"
    said = []
    while items:
        item, result = items[0], in_c(items[1]) if len(items) > 1 else ""
        call = called(item, pointers, items[1]) if result else None
        said.append(f"{call} == {result}" if call else item)
        items = items[2 if call else 1:]
    return f"same({what}, {' && '.join(said)}, 1);"


def lines(rows, pointers):
    for row in rows:
        if isinstance(row, str):
            yield f"{called(row, pointers) or row};"
        elif isinstance(row, dict):
            (kind, head), (_, inner) = row.items()
            yield from (f"{kind} ({head}) {{", *lines(inner, pointers), "}")
        else:
            yield check(row, pointers)


def function(name, rows, takes="void", has=(), when="", gives="void "):
    text = f"static {gives}{name}({takes}) {{\n" + "\n".join([*(f"{it};" for it in has), *lines(rows, re.findall(r"\*(\w+)", takes))]) + "\n}\n"
    return f"#ifdef {when}\n{text}#else\nstatic void {name}(void) {{}}\n#endif\n" if when else text


def case(call, count=0, *also):
    name, given = call.split("(", 1)
    return ", ".join([f"result = CALL(oca_{name})({given}", f"count = {count}", *also])


def cases(name, rows):
    """The cases of a switch, as the macro NAME_CALLS, and how many there are: a row is a statement, or what `case` takes."""
    lines = (f" \\\n    case {number}: {row if isinstance(row, str) else case(*row)}; break;" for number, row in enumerate(rows))
    return f"#define {name}_COUNT {len(rows)}\n#define {name}_CALLS{''.join(lines)}\n"


def test(name, place):
    """Puts the test tools/NAME.c into this folder, with c_checks.h and what tools/rows/NAME_calls.toml has beside it; answers where the test is."""
    shutil.copy(HERE / "c_checks.h", place)
    read = vars(data(f"{name}_calls"))
    made = [function(**part) for part in read.pop("part", ())] + [cases(*row) for row in read.items()]
    (place / f"{name}_calls.h").write_text("".join(made))
    return shutil.copy(HERE / f"{name}.c", place)
