"""What the archive asks of a host beside its slices: a C or C++ compiler for its header, stack, at most SYMBREAK_MAX_STACK bytes, and memcpy and memset. The
stack is added up from the frames in the machine code, and measured with each export at the limits (stack.c). And the example of a host. Run by tests/run;
-v prints the figures."""
import os
import re
import subprocess
import sys
import tempfile
import unittest

import library

HERE = os.path.dirname(os.path.abspath(__file__))
INCLUDE = os.path.join(library.ROOT, "include")
OUTSIDE = {"memcpy", "memset"}


# how a large frame is taken: in a loop that touches each page, by steps of a page or of three quarters of one, down to an address in r11
PAGE_BY_PAGE = r"\tmov +%rsp,%r11\n.*\tsub +\$(0x[0-9a-f]+),%r11\n.*\tsub +\$0x(?:1000|c00),%rsp\n.*\tmovq +\$0x0,\(%rsp\)\n.*\tcmp +%r11,%rsp\n.*\tjne .*\n"


def output(*command):
    return subprocess.run(command, check=True, capture_output=True, text=True).stdout


def functions():
    """The bytes that each function has on the stack, with its return address, and the functions that it calls. A way to take stack or to call that can't be
    added up so, as a call by pointer, is an error; jumps by table stay in their function."""
    found = {}
    _, *parts = re.split(r"^[0-9a-f]+ <(.+)>:$", output("objdump", "-dr", "--no-show-raw-insn", library.archive()), flags=re.M)
    for name, code in zip(parts[::2], parts[1::2]):
        code = re.sub(PAGE_BY_PAGE, r"\tsub $\1,%rsp\n", code)
        assert all(re.match(r"(sub|add) +\$0x", each) for each in re.findall(r"\t(.*),%rsp$", code, re.M)), name
        taken = re.findall(r"\tsub +\$(0x[0-9a-f]+),%rsp", code) + ["8"] * len(re.findall(r"\tpush ", code))
        below = [-(-int(size, 0) // 8) * 8 for size in re.findall(r"-(0x[0-9a-f]+)\(%rsp[,)]", code)]  # in whole words, as they are measured
        calls = re.findall(r"\t(call|j\w+) +.*\n(?:.*R_X86_64_PLT32\t(?:\.text\.)?(\S+)-0x4)?", code)
        assert ("call", "") not in calls, name
        found[name] = 8 + sum(int(size, 0) for size in taken) + max(below, default=0), {called for _, called in calls if called}
    return found


def depth(found, name, above=()):
    """The most that a function and those that it calls have on the stack at a time; of those outside it is the return address alone."""
    assert name not in above, "recursion"
    size, called = found.get(name) or {outside: (8, []) for outside in OUTSIDE}[name]
    return size + max((depth(found, each, (*above, name)) for each in called), default=0)


def measured():
    """What each export was seen to use."""
    with tempfile.TemporaryDirectory() as folder:
        program = os.path.join(folder, "stack")
        subprocess.run(["gcc", "-std=gnu11", "-O2", "-Wall", "-Wextra", "-Werror", "-maccumulate-outgoing-args", "-Wl,-z,now", "-I" + INCLUDE, "-o", program,
                        os.path.join(HERE, "stack.c"), library.archive()], check=True)
        return {name: int(size) for name, size in map(str.split, output(program).splitlines())}


class Header(unittest.TestCase):
    def test_languages(self):
        """The header is C99 and C++98, and what it declares links."""
        with tempfile.TemporaryDirectory() as folder:
            for compiler, standard, suffix in [("gcc", "c99", "c"), ("g++", "c++98", "cc")]:
                source, program = os.path.join(folder, "host." + suffix), os.path.join(folder, "host-" + suffix)
                with open(source, "w") as file:
                    file.write('#include "symbreak.h"\nint main() { return (int)symbreak_new_record().is_open; }\n')
                warnings = ["-Wall", "-Wextra", "-Werror"] + (["-pedantic"] if suffix == "c" else [])
                subprocess.run([compiler, "-std=" + standard, *warnings, "-I" + INCLUDE, "-o", program, source, library.archive()], check=True)
                subprocess.run([program], check=True)


class Example(unittest.TestCase):
    """examples/host, built as its Makefile does and without a solver in reach."""

    def test_taken_back(self):
        """Its README's wrong mark: the lines printed are those shown there."""
        folder = os.path.join(library.ROOT, "examples", "host")
        with open(os.path.join(folder, "README.md")) as readme:
            lines, shown = (re.sub("^    ", "", block, flags=re.M) for block in re.search(r"the lines are\n\n(.*?)\n\n.*?\n\n(.*?)\n\n", readme.read(), re.S).groups())
        with tempfile.TemporaryDirectory() as made:
            host, formula, marks, out = (os.path.join(made, name) for name in ("host", "formula", "marks", "out"))
            sources = [os.path.join(folder, name) for name in ("host.c", "system.c")]
            subprocess.run(["gcc", "-std=c11", "-O2", "-Wall", "-Wextra", "-Werror", "-I" + INCLUDE, "-o", host, *sources, library.archive()], check=True)
            for path, content in (formula, "p cnf 3 1\n1 2 3 0\n"), (marks, lines + "\n"):
                with open(path, "w") as file:
                    file.write(content)
            ran = subprocess.run([host, formula, marks, out], env={"PATH": "/nonexistent"}, capture_output=True, text=True)
            self.assertEqual(ran.stdout.splitlines()[:3], shown.splitlines(), ran)


class Stack(unittest.TestCase):
    def test_stack(self):
        with open(os.path.join(INCLUDE, "symbreak.h")) as header:
            most = int(re.search(r"#define SYMBREAK_MAX_STACK (\d+)", header.read())[1])
        found, seen = functions(), measured()
        self.assertEqual(set(seen), set(library.EXPORTS))
        for name in library.EXPORTS:
            added = depth(found, name)
            if "-v" in sys.argv:
                print(f"{name:22}{added:6} bytes added up, {seen[name]} measured")
            self.assertLessEqual(seen[name], added, name)
            self.assertLessEqual(added, most, name)

    def test_outside(self):
        """Nothing else is called: no allocation, no input or output, no failure."""
        self.assertEqual(set(re.findall(r"\bU (\S+)", output("nm", "-u", library.archive()))), OUTSIDE)


if __name__ == "__main__":
    unittest.main()
