"""Makes a program out of the library for C, for tools/witness: what is not proved makes no archive, but a program runs
unproved (`rt try`). The C program of tests/c becomes a function of the program; each function of the header is a stub
that sets its arguments aside, goes over to the program's own side, where `main` calls the library with them, and comes
back with what that answered."""
import re
import shutil

# What a value is called in the names of the functions that hand it over, and in C where it is no struct of the header.
PLAIN = {"f64": "double", "u8": "uint8_t", "u32": "uint32_t", "u64": "uint64_t", "bool": "bool"}
SLICES = {"&[f64]": ("*const f64", "from_raw_parts"), "&mut [f64]": ("*mut f64", "from_raw_parts_mut"),
          "&mut [u8]": ("*mut u8", "from_raw_parts_mut")}
EXPORT = re.compile(r"#\[unsafe\(no_mangle\)\]\npub extern \"C\" fn (\w+)\(([^)]*)\) -> (\w+)")


def word(kind):
    return "kind_" + re.sub(r"(?<=[a-z0-9])([A-Z])", r"_\1", kind).lower()


def exports(source):
    """The functions of a file: name, kinds of the arguments, kind of the answer."""
    for name, arguments, answer in EXPORT.findall(source):
        kinds = [part.partition(":")[2].strip() for part in arguments.split(",") if part.strip()]
        yield name, kinds, answer


def imported(module, source):
    """Where each type of a file comes from."""
    found = {kind: f"crate::{module}::{kind}" for kind in re.findall(r"^pub struct (\w+)", source, re.MULTILINE)}
    for path, names in re.findall(r"^use ([\w:]+)::\{([^}]*)\};", source, re.MULTILINE):
        found |= {kind.strip(): f"{path}::{kind.strip()}" for kind in names.split(",")}
    for path, kind in re.findall(r"^use ([\w:]+)::(\w+);", source, re.MULTILINE):
        found[kind] = f"{path}::{kind}"
    return found


def handed(kind, at):
    """The argument in the program."""
    if kind in SLICES:
        return f"unsafe {{ core::slice::{SLICES[kind][1]}(crate::calls::{word_of_slice(kind)}({at}), crate::calls::length({at})) }}"
    return f"crate::calls::take_{word(kind)}({at})"


def word_of_slice(kind):
    return "slice_" + re.sub(r"\W+", "_", kind).strip("_")


def declared(header):
    """What the header declares: the type that is answered, the name, the parameters."""
    text = re.sub(r"/\*.*?\*/", " ", header, flags=re.DOTALL)
    text = re.sub(r"^ *#.*$", " ", text, flags=re.MULTILINE)
    for statement in re.sub(r"\s+", " ", text).split(";"):
        found = re.fullmatch(r" ?(\w+) (umb_\w+)\((.*)\)", statement.strip())
        if found:
            parameters = [] if found[3] == "void" else [part.strip() for part in found[3].split(",")]
            yield found[1], found[2], parameters


def write(root, copy):
    """Writes the crate `calls` into a copy of the crates, from what stands there of `umblacet`."""
    to = copy / "crates" / "calls"
    shutil.rmtree(to, ignore_errors=True)
    (to / "c").mkdir(parents=True)
    shutil.copytree(copy / "crates" / "umblacet" / "src", to / "src")
    shutil.copytree(copy / "crates" / "umblacet" / "specs", to / "specs")
    (to / "src" / "lib.rt").unlink()
    for file in [*(root / "tests" / "c").glob("*.[ch]"), root / "include" / "umblacet.h"]:
        shutil.copy(file, to / "c")

    numbers, kinds, answers, slices, from_where, modules = {}, set(), set(), set(), {}, []
    for file in sorted((to / "src").glob("*.rt")):
        source = file.read_text("utf-8")
        modules.append(file.stem)
        from_where |= imported(file.stem, source)
        arms = []
        for name, arguments, answer in exports(source):
            numbers[name] = len(numbers) + 1
            slices |= {kind for kind in arguments if kind in SLICES}
            kinds |= {kind for kind in arguments if kind not in SLICES}
            answers.add(answer)
            handed_on = ", ".join(handed(kind, at) for at, kind in enumerate(arguments))
            arms.append(f"        {numbers[name]} => crate::calls::give_{word(answer)}({name}({handed_on})),\n")
        source += "\npub fn answer(number: u32) {\n    match number {\n" + "".join(arms) + "        _ => {}\n    }\n}\n"
        file.write_text(source, "utf-8")
    for file in [*(to / "src").glob("*.rt"), *(to / "specs").glob("*.antt")]:
        file.write_text(file.read_text("utf-8").replace("Rattle.umblacet.", "Rattle.calls."), "utf-8")

    own = sorted((kinds | answers) - PLAIN.keys())
    lines = [f"use {from_where[kind]};\n" for kind in own]
    lines.append("\nunsafe extern \"C\" {\n    pub safe fn next_call() -> u32;\n    pub safe fn ended_with() -> u8;\n")
    lines.append("    pub safe fn length(at: u32) -> usize;\n")
    lines += [f"    pub safe fn take_{word(kind)}(at: u32) -> {kind};\n" for kind in sorted(kinds)]
    lines += [f"    pub safe fn give_{word(kind)}(answer: {kind});\n" for kind in sorted(answers)]
    lines += [f"    pub safe fn {word_of_slice(kind)}(at: u32) -> {SLICES[kind][0]};\n" for kind in sorted(slices)]
    (to / "src" / "calls.rt").write_text("".join(lines) + "}\n", "utf-8")

    calls = "".join(f"        {module}::answer(number);\n" for module in modules)
    (to / "src" / "main.rt").write_text(
        "#![tactic(auto)]\n\n" + "".join(f"mod {module};\n" for module in ["calls", *modules])
        + "\nuse std::process::ExitCode;\n\nfn main() -> ExitCode {\n    let mut number = calls::next_call();\n"
        + f"    while number != 0 {{\n{calls}        number = calls::next_call();\n    }}\n"
        + "    ExitCode::from(calls::ended_with())\n}\n", "utf-8")

    in_c = dict(PLAIN)
    stubs = []
    for answer, name, parameters in declared((root / "include" / "umblacet.h").read_text("utf-8")):
        file = next(file for file in (to / "src").glob("*.rt") if f"fn {name}(" in file.read_text("utf-8"))
        arguments, kind = next((a, k) for n, a, k in exports(file.read_text("utf-8")) if n == name)
        in_c[kind] = answer
        body, at = "", 0
        for place, argument in enumerate(arguments):
            called = re.search(r"(\w+)$", parameters[at])[1]
            if argument in SLICES:
                length = re.search(r"(\w+)$", parameters[at + 1])[1]
                body += f"slices[{place}] = (void *){called}; lengths[{place}] = {length}; "
                at += 2
            else:
                in_c[argument] = parameters[at].rpartition(" ")[0]
                body += f"memcpy(arguments[{place}], &{called}, sizeof {called}); "
                at += 1
        stubs.append(f"{answer} {name}({', '.join(parameters) or 'void'}) {{ {answer} answer; {body}call({numbers[name]}); "
                     "memcpy(&answer, answered, sizeof answer); return answer; }\n")
    takes = [f"{in_c[kind]} take_{word(kind)}(uint32_t at) {{ {in_c[kind]} value; memcpy(&value, arguments[at], sizeof value); return value; }}\n"
             for kind in sorted(kinds)]
    gives = [f"void give_{word(kind)}({in_c[kind]} value) {{ memcpy(answered, &value, sizeof value); }}\n" for kind in sorted(answers)]
    lent = [f"void *{word_of_slice(kind)}(uint32_t at) {{ return slices[at]; }}\n" for kind in sorted(slices)]
    (to / "c" / "calls_between.c").write_text(BETWEEN + "".join(stubs + takes + gives + lent), "utf-8")

    line = next(line for line in (copy / "crates.txt").read_text("utf-8").splitlines() if line.startswith("umblacet "))
    others = [line for line in (copy / "crates.txt").read_text("utf-8").splitlines() if not line.startswith("calls:")]
    (copy / "crates.txt").write_text("\n".join([*others, "calls:" + line.partition(":")[2]]) + "\n", "utf-8")


BETWEEN = """#define _GNU_SOURCE
#include "umblacet.h"

#include <stdio.h>
#include <string.h>
#include <ucontext.h>

static ucontext_t of_the_program, of_the_test;
static char stack[1 << 23];
static char arguments[12][64], answered[256];
static void *slices[12];
static size_t lengths[12];
static uint32_t number;
static int status;

int test_main(void);

static void begin(void)
{
    status = test_main();
    fflush(stdout);
    fflush(stderr);
    number = 0;
}

uint32_t next_call(void)
{
    static bool begun;
    if (!begun) {
        begun = true;
        getcontext(&of_the_test);
        of_the_test.uc_stack.ss_sp = stack;
        of_the_test.uc_stack.ss_size = sizeof stack;
        of_the_test.uc_link = &of_the_program;
        makecontext(&of_the_test, begin, 0);
    }
    swapcontext(&of_the_program, &of_the_test);
    return number;
}

static void call(uint32_t called)
{
    number = called;
    swapcontext(&of_the_test, &of_the_program);
}

uint8_t ended_with(void) { return (uint8_t)status; }
size_t length(uint32_t at) { return lengths[at]; }

"""
