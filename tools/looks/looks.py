"""Holds the libraries' code to tools/looks/reads.txt, and the wrong programs beside it to being refused: tools/looks.sh says what for."""
import glob
import os
import re
import shutil
import subprocess
import sys
import tempfile
from collections import Counter
from concurrent.futures import ThreadPoolExecutor

sys.dont_write_bytecode = True
import reads

TABLE = "tools/looks/reads.txt"
# judge a line by its kind
DECIDES = "measure::late measure::after_fence".split()
# are on the way from a text to a look
WHOLE = "kinds::identify measure::early measure::look measure::measure tree::block tree::blocks tree::container parse::document".split()
CLAUSE = re.compile(r"(?m)^ *(requires|ensures|ghost)\b.*\n")
# A function up to its body or, in a trait, to its end, or what may have such words in it: a comment, a literal.
FUNCTION = re.compile(r"""//[^\n]*|b?"(?:[^"\\]|\\.)*"|b?'(?:[^'\\]|\\.)'|\bfn\s+(\w+)(?:\[(?:[^\[\]]|\[[^\]]*\])*\]|[^{;\[])*([{;])""")
# Rattle's borrow checker does not cover a function that takes an address, so it makes no proof for it, which is most of its work. This loads and calls nothing.
UNPROVED = " { let byte: u8 = 0; let _at = &raw const byte; }"


def text_of(file):
    with open(file, encoding="utf-8") as it:
        return it.read()


def write(file, text):
    with open(file, "w", encoding="utf-8") as it:
        it.write(text)


class Libraries:
    """The libraries of crates.txt, in its order, each with those that it builds on; the kit reads their code from copies."""

    def __init__(self, scratch):
        said = subprocess.run(["rt", "doc"], stdout=subprocess.PIPE, text=True, check=True)
        self.kit, self.scratch = os.path.dirname(said.stdout.strip()), scratch
        self.uses, self.static = {}, set()
        for line in text_of("crates.txt").partition("\n# programs")[0].split("\n"):
            name, _, uses = line.partition("#")[0].partition(":")
            if name.strip():
                name, *kind = name.split()
                self.uses[name] = uses.split()
                self.static |= {name} if kind else set()
        # the parser, what compares two editions, the first line's reader, and all above: bytes that these load are a text's
        self.parser = {it for c in ("parse", "editions") for it in (c, *self.below(c))} | self.above("parse") | {"heads"}
        self.lined = {"measure", *self.above("measure")}

    def below(self, crate):
        found, todo = set(), [*self.uses[crate]]
        while todo:
            it = todo.pop()
            if it not in found:
                found.add(it)
                todo += self.uses[it]
        return [it for it in self.uses if it in found]

    def above(self, crate):
        return {it for it in self.uses if crate in self.below(it)}

    def copied(self):
        folder = tempfile.mkdtemp(dir=self.scratch)
        for crate in self.uses:
            shutil.copytree(f"crates/{crate}/src", f"{folder}/{crate}/src")
        return folder

    def bared(self, folder):
        """Leaves of the sources what is code, and returns each function's crate and name. Each clause has a line of its own, since rt ci wants rt fmt's layout."""
        found = []
        for file in sorted(glob.glob(f"{folder}/*/src/**/*.rt", recursive=True)):
            crate = os.path.relpath(file, folder).split("/")[0]
            text = text_of(file)
            if any("/*" in it[0] or (not it[1] and "\n" in it[0]) for it in FUNCTION.finditer(text)) or "/*" in FUNCTION.sub("", text):
                raise reads.Strange(f"{file}: a comment between signs, or a literal of several lines: a line in it could pass for a clause")
            text = CLAUSE.sub(lambda it: ";\n" * (it[1] != "ghost" and it[0].endswith("};\n")), text)
            found += [(crate, it) for it, end in FUNCTION.findall(text) if end == "{"]
            write(file, FUNCTION.sub(lambda it: it[0] + UNPROVED * (it[2] == "{"), text))
        return found

    def code(self, folder, root, crate, libraries, functions, *flags):
        """Returns what the kit has of these functions, of a crate and the libraries below it: what each does, by its name; of all where none is named."""
        to = tempfile.mkdtemp(dir=self.scratch)
        words = [f"{self.kit}/bin/rattle", "check", "--crate-name", crate, f"{folder}/{crate}/src/{root}", *flags, "--generated", to]
        words += ["--extern", f"std={self.kit}/rlibs/std.rlib", "-L", f"dependency={self.kit}/rlibs"]
        for it in libraries:
            words += ["--lib", f"{it}:{','.join(['std', *self.below(it)])}={folder}/{it}/src/lib.rt"]
        words += ["--antt-project", f"{self.kit}/rattle/logic/antt-project.json", "--logic-built", f"{self.kit}/logic_built"]
        how = {"stdin": subprocess.DEVNULL, "stdout": subprocess.PIPE, "stderr": subprocess.STDOUT, "errors": "replace"}
        said = subprocess.run(words, **how).stdout
        files = reads.code_in(to)
        for it in functions:
            if it not in files:
                raise reads.Strange(f"the kit gives no code of {it}: {said[-2000:]}")
        found = {it: reads.does(it, files[it]) for it in functions or files}
        shutil.rmtree(to)
        return found

    def right(self):
        """Returns what each function of the libraries does, called or not: all are below a program."""
        folder = self.copied()
        functions = self.bared(folder)
        os.makedirs(f"{folder}/none/src")
        write(f"{folder}/none/src/main.rt", "fn main() {}\n")
        code = self.code(folder, "main.rt", "none", self.uses, [])
        del code["none::main"]
        named = Counter((reads.crate(it), it.split("::")[-1]) for it in code)
        missed = Counter(functions) - named
        if missed:
            raise reads.Strange(f"the kit gives no code of {missed}")
        return code

    def wrong(self, edit):
        """Returns what the function does at which an edit's program is to be refused, and its name."""
        folder = self.copied()
        at = edited(edit, folder)
        self.bared(folder)
        crate = reads.crate(at)
        flags = [*(["--crate-type", "staticlib"] if crate in self.static else []), "--start", at]
        found = self.code(folder, "lib.rt", crate, self.below(crate), [at], *flags)
        shutil.rmtree(folder)
        return at, found

    def table(self, code):
        return reads.table(code, [*self.uses], self.parser, self.lined, DECIDES, WHOLE)


def edited(edit, folder):
    """Applies an edit to a copy of the sources, and returns its `at`."""
    at, file, old, new = "", "", None, []

    def put():
        to = f"{folder}/{file.removeprefix('crates/')}"
        text = text_of(to) if os.path.exists(to) else None
        if (old is None) != (text is None) or (text and text.count(old) != 1):
            raise reads.Strange(f"the old text does not stand once in {file}")
        write(to, text.replace(old, "\n".join(new)) if text else "\n".join([*new, ""]))

    for line in [*text_of(edit).split("\n"), "file: "]:
        word, _, rest = line.partition(": ")
        if word in ("file", "old") and new:
            put()
            old, new = None, []
        if word == "at":
            at = rest
        elif word == "file":
            file = rest
        elif word == "old":
            old = rest
        elif word == "new":
            new.append(rest)
    return at


def renewed(lines, lined):
    """Returns the table with the reasons that the present one has: each crate has one, and each function from `measure` on."""
    about, why, made, last = {}, {}, [], ""
    for line in text_of(TABLE).splitlines():
        found = re.match(r"# ([a-z_]+): ", line)
        if found:
            about[found[1]] = line
        elif line.startswith("#"):
            made.append(line)
        else:
            line, _, reason = line.partition(" # ")
            why[line.partition(": ")[0]] = reason
    for function, line in lines.items():
        crate = reads.crate(function)
        if crate != last:
            made.append(about.get(crate, f"# {crate}: ?"))
        last = crate
        reason = why.get(function) or ("?" if crate in lined else "")
        made.append(f"{line} # {reason}" if reason else line)
    return made


def differs(held, table):
    lines = [f"  the table: {it}" for it in held if it not in table] + [f"  the code:  {it}" for it in table if it not in held]
    print("\n".join(lines or ["  the order is another"]))
    print(f"lines are read otherwise than {TABLE} says: see that no test of a line goes uncounted, then renew it (tools/looks.sh --print)")
    return 1


def looks(is_print, scratch, pool):
    libraries = Libraries(scratch)
    edits = [] if is_print else sorted(glob.glob("tools/looks/*.edit"))
    if not edits and not is_print:
        raise reads.Strange("there are no wrong programs in tools/looks")
    right = pool.submit(libraries.right)
    tried = [(it, pool.submit(libraries.wrong, it)) for it in edits]
    code = right.result()
    if not {*DECIDES, *WHOLE} <= {*code}:
        raise reads.Strange(f"there is no function {' '.join({*DECIDES, *WHOLE} - {*code})}")
    lines = libraries.table(code)
    table, held = renewed(lines, libraries.lined), text_of(TABLE).splitlines()
    if is_print:
        print("\n".join(table))
        return 0
    if held != table:
        return differs(held, table)
    for it in table:
        if re.search("[:#] [?]$", it):
            print(f"no reason is given in {TABLE}: {it}")
            return 1
    for edit, run in tried:
        try:
            at, found = run.result()
            wrong = libraries.table({**code, **found})
        except reads.Strange as why:
            print(f"{edit} shows nothing: {why}")
            return 1
        if at not in wrong or wrong[at] == lines.get(at):
            print(f"{edit} is NOT REFUSED at {at}")
            return 1
    print(f"lines are tested in one function: {len(lines)} functions read as listed, {len(tried)} wrong programs are refused")
    return 0


def main(words):
    # a run for each processor, with 2 GB of memory for each
    free = int(re.search(r"MemAvailable:\s+(\d+)", text_of("/proc/meminfo"))[1]) // 2_000_000
    with tempfile.TemporaryDirectory(prefix="looks-") as scratch:
        pool = ThreadPoolExecutor(max(1, min(len(os.sched_getaffinity(0)), free)))
        try:
            return looks(words == ["--print"], scratch, pool)
        except reads.Strange as why:
            print(f"looks: {why}")
            return 2
        finally:
            pool.shutdown(cancel_futures=True)


if __name__ == "__main__":
    sys.exit(main(sys.argv[1:]))
