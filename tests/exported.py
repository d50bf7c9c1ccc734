"""A library for C without its proofs: the module that tests/unproved keeps, with the library's exports in it.

`rt try` builds programs, of which it lowers what `main` reaches. So a copy of the crate becomes a program: its `main`
takes a pointer to a function for each export, which calls it. In the text of the module that comes of this the exports
get their own names, for others to call, and `main` loses its own.
"""
import re
import shutil
from pathlib import Path

EXPORT = re.compile(r'pub extern "C" fn (iol_\w+)\(([^)]*)\) -> (\w+)')


def parameters_of(words):
    """The names and the types of parameters."""
    pairs = [it.split(":", 1) for it in " ".join(words.split()).rstrip(",").split(", ") if it]
    return [name.strip() for name, _ in pairs], [kind.strip() for _, kind in pairs]


def pointer_to(kinds, answer):
    """The type of a pointer to a function: each reference has a lifetime of its own."""
    lives = []

    def with_life(_):
        lives.append(f"'l{len(lives)}")
        return f"&{lives[-1]} "

    kinds = re.sub(r"&(?!')", with_life, ", ".join(kinds))
    binder = f"for<{', '.join(lives)}> " if lives else ""
    return f"{binder}fn({kinds}) -> {answer}"


def reaching(text):
    """What a module of a library needs, so that its function `reach` reaches each of its exports."""
    calls, pointers = [], []
    for name, words, answer in EXPORT.findall(text):
        names, kinds = parameters_of(words)
        given = ", ".join(map(": ".join, zip(names, kinds)))
        calls.append(f"fn reach_{name}({given}) -> {answer} {{ {name}({', '.join(names)}) }}\n")
        pointers.append(f"    let _: {pointer_to(kinds, answer)} = reach_{name};\n")
    return "".join([*calls, "pub(crate) fn reach() {\n", *pointers, "}\n"]) if calls else ""


def as_program(folder, to):
    """A copy of a library's crate, as a program that reaches all its exports."""
    shutil.copytree(folder, to, ignore=shutil.ignore_patterns("out"))
    sources = Path(to, "src")
    reached = []
    for file in sorted(sources.glob("*.rt")):
        text = file.read_text(encoding="utf-8")
        more = reaching(text)
        if more:
            file.write_text(f"{text}\n{more}", encoding="utf-8")
            reached.append("reach();" if file.name == "lib.rt" else f"crate::{file.stem}::reach();")
    root = (sources / "lib.rt").read_text(encoding="utf-8")
    (sources / "main.rt").write_text(f"{root}\nfn main(rt: HostRuntime) {{ {' '.join(reached)} }}\n", encoding="utf-8")
    (sources / "lib.rt").unlink()
    return to


def with_exports(text, crate):
    """The text of a program's module as that of a library."""
    names = rf'@"{crate}::(?:\w+::)?(iol_\w+)"'
    text = re.sub(rf"^define internal (.*?){names}\(", r"define \1@\2(", text, flags=re.MULTILINE)
    text = re.sub(names, r"@\1", text)
    return re.sub(r"^define (i32 @main\()", r"define internal \1", text, flags=re.MULTILINE)
