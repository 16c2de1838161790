# Reads the case files and runs them: what tools/cases.sh calls. cases/README.md has the format.
import re
import struct
import subprocess
import sys
import tempfile
from concurrent.futures import ThreadPoolExecutor
from pathlib import Path

MARKS = {"␠": " ", "␉": "\t", "␊": "\n", "␌": "\f", "␍": "\r"}
INPUTS = ("newer", "older events", "newer events")
AS = []  # another program instead of `show`


def stop(why):
    sys.exit(f"cases: {why}")


# ---- what lines stand for

def text(lines):
    whole = re.sub(r"⟨(\d+) times ([^⟩]*)⟩", lambda m: m[2] * int(m[1]), "".join(line + "\n" for line in lines))
    whole = whole[:-2] if whole.endswith("␄\n") else whole
    if re.search("[⟨⟩␄]", whole):
        raise ValueError("a mark that is not understood")
    for mark, byte in MARKS.items():
        whole = whole.replace(mark, byte)
    return whole.encode()


def words(lines):
    return [int(token) for token in text(lines).decode().split()]


def stream(lines):
    return b"".join(t[1:-1].encode() if t[0] == '"' else bytes([int(t)]) for t in text(lines).decode().split())


# ---- what the programs give

def call(program, given, *args, folder=None):
    command = AS or [str(Path("crates", program, "out", program).resolve())]
    run = subprocess.run([*command, *args], input=given, capture_output=True, cwd=folder, timeout=60)
    if run.returncode and not AS:
        return f"ended with status {run.returncode}\n".encode() + run.stderr
    return run.stdout or run.stderr


def framed(op, load):
    return op.encode() + struct.pack("<I", len(load)) + load


def show(case, full):
    return call("show", (b"full\n" if full else b"") + text(case["text"]))


def store(case):
    got = call("store", text(case["text"]))
    return got if got.startswith(b"refused") else " ".join(map(str, got)).encode()


def stored(case, full):
    made = call("store", text(case["text"]))
    return made if made.startswith(b"refused") else call("recall", (b"full\n" if full else b"") + made)


def recall(case):
    return call("recall", stream(case["text"]))


def attributes(case):
    return call("attributes", text(case["text"]))


def changes(case):
    with tempfile.TemporaryDirectory() as folder:
        for name, part in (("older", "text"), ("newer", "newer")):
            Path(folder, name).write_bytes(text(case[part]))
        return call("changes", b"", "older", "newer", folder=folder)


def pages(case, *room):
    given = text(case["text"])
    return call("pages", struct.pack("<IIIBB", len(given), *map(int, room)) + given)


def streams(case, op, room):
    load = struct.pack(f"<{len(words(case['text']))}I", *words(case["text"])) if op == "write" else stream(case["text"])
    return call("streams", framed(op[0], struct.pack("<I", int(room)) + load))


def openings(case, op, named, room):
    e, p, *more = map(int, room.split())
    places, spare = more if op == "pairs" else (0, 0)
    lent, key = (more[0] if op in ("join", "text") else 0), (named or "").strip()
    place, key = (int(key), "") if op == "text" else (0, key)
    head = struct.pack("<7H", e, p, places, spare, lent, place, len(key))
    return call("openings", framed(op[0], head + key.encode() + text(case["text"])))


def reviews(case, *limits):
    def packed(part):
        return b"".join(bytes([w]) if w < 255 else b"\xff" + struct.pack("<I", w) for w in words(case[part]))
    parts = [text(case["text"]), packed("older events"), text(case["newer"]), packed("newer events")]
    got = call("reviews", framed("w", struct.pack("<8H", *map(int, limits), *map(len, parts[:3])) + b"".join(parts)))
    return b" ".join(got.split()[:5])


# What may stand behind `--- ` of an output; where the output is numbers, their lines may be cut anywhere.
FORMS = [(r"show( full)?", show, False), (r"store \| recall( full)?", stored, False), (r"recall", recall, False), (r"attributes", attributes, False),
         (r"changes", changes, False), (r"store", store, True), (r"pages (\d+) (\d+) (\d+) (\d+)", pages, True), (r"streams (write|read) (\d+)", streams, True),
         (r"openings (read)()((?: \d+){2})", openings, True), (r"openings (value)( \S+)((?: \d+){2})", openings, True),
         (r"openings (pairs)()((?: \d+){4})", openings, True), (r"openings (join)( \S+)((?: \d+){3})", openings, True),
         (r"openings (text)( \d+)((?: \d+){3})", openings, True), (r"reviews" + r" (\d+)" * 5, reviews, True)]


def form(name):
    return next(((give, m.groups(), numbers) for pattern, give, numbers in FORMS if (m := re.fullmatch(pattern, name))), None)


def plain(given, numbers):
    return " ".join(given.decode().split()) if numbers else given.decode("utf-8", "backslashreplace")


# The lines that stand for an output, as a case has them.
def marked(got):
    lines = [re.sub(" $", "␠", line) for line in got.split("\n")]
    last = lines.pop()
    whole = "\n".join(lines + [last + "␄"] * (last != ""))
    for mark, byte in MARKS.items():
        whole = whole.replace(byte, mark) if byte not in " \n" else whole
    return whole


# Where two outputs part.
def parting(want, got):
    lines = zip(want.split("\n") + [""], got.split("\n") + [""])
    return f"another line {next((at for at, (a, b) in enumerate(lines, 1) if a != b), 'behind the end')}"


# ---- case files

def read(path):
    cases, part = [], None
    lines = path.read_bytes().decode("utf-8", "replace").split("\n")
    if lines.pop() != "" or not lines or lines[-1] == "":
        stop(f"{path}: it does not end with a line of a case")
    for at, line in enumerate(lines, 1):
        def broken(why):
            stop(f"{path}:{at}: {why}: {line}")
        if re.search(r"[\0-\x1f\x7f\ufffd]| $", line):
            broken("a byte that does not show")
        if line.startswith("==="):
            head = re.fullmatch(r"=== ((?:[A-Z]\d+ )*[A-Z]\d+): (\S.*)", line)
            if not head:
                broken("no rules, colon and words")
            if cases and (not cases[-1]["outputs"] or not part or part.pop() != ""):
                broken("the case before has no output, or no blank line behind it")
            part = []
            cases.append({"at": f"{path}:{at}", "file": path.stem, "head": line[4:], "rules": head[1].split(), "text": part, "inputs": [], "outputs": []})
            cases[-1].update({name: [] for name in INPUTS})
        elif line.startswith("--- ") and cases:
            part, name = [], line[4:]
            if name in INPUTS and not cases[-1]["outputs"]:
                cases[-1][name] = part
                cases[-1]["inputs"].append(line)
            elif form(name):
                cases[-1]["outputs"].append((name, part))
            else:
                broken("neither an output nor, before the outputs, an input")
        elif cases:
            part.append(line)
            cases[-1]["inputs"] += [line] * (not cases[-1]["outputs"])
        elif line and not line.startswith("#"):
            broken("before the first case only lines that begin with # may stand")
    if not cases or not cases[-1]["outputs"]:
        stop(f"{path}: no case, or the last has no output")
    return cases


def run(case):
    gave = []
    for name, want in case["outputs"]:
        give, args, numbers = form(name)
        if not AS or name.startswith("show"):
            try:
                gave.append((name, plain(text(want), numbers), plain(give(case, *args), numbers)))
            except (ValueError, IndexError, KeyError, struct.error, subprocess.TimeoutExpired) as error:
                gave.append((name, "what the case says", f"{type(error).__name__}: {error}"))
    return gave


# ---- every rule at least once

def misses(cases):
    rules = re.findall(r"(?m)^- \*\*([A-Z]\d+)\*\*", Path("docs/RULES.md").read_text("utf-8"))
    table = re.findall(r"(?m)^\| ([A-Z]\d+) \|(.*)$", Path("cases/README.md").read_text("utf-8"))
    shown, listed = {rule for case in cases for rule in case["rules"]}, {rule for rule, _ in table}
    found = [f"{case['at']}: docs/RULES.md has no rule {rule}" for case in cases for rule in case["rules"] if rule not in rules]
    found += [f"{rule} is in no case, and not in the table of cases/README.md" for rule in rules if rule not in shown | listed]
    for rule, row in table:
        places = re.findall(r"`(\w+/[^`]*)`", row)
        found += [f"cases/README.md: docs/RULES.md has no rule {rule}"] * (rule not in rules)
        found += [f"cases/README.md: {rule} is in a case, too"] * (rule in shown)
        found += [f"cases/README.md: no file is named for {rule}"] * (not places)
        found += [f"cases/README.md: {rule}: no file {name}" for name in places if not Path(name).is_file()]
    return found, f"{len(shown)} rules hold; {len(listed)} more rules are shown elsewhere"


def main(args):
    if args[:1] == ["--as"]:
        AS[:], args = args[1:], []
    printing, names = "--print" in args, {Path(a).stem for a in args if a != "--print"}
    files = sorted(path for path in Path("cases").iterdir() if path.name != "README.md")
    cases = [case for path in files for case in read(path)]
    unknown = names - {name for case in cases for name in (case["file"], *case["rules"])}
    if unknown or not cases:
        stop(f"no file and no rule of a case: {' '.join(unknown)}")
    found, rules = misses(cases)
    chosen = [case for case in cases if not names or names & {case["file"], *case["rules"]}]
    if AS:
        chosen = [case for case in chosen if "V9" not in case["rules"] and any(form(name)[0] is show for name, _ in case["outputs"])]
    with ThreadPoolExecutor(2) as pool:
        answers = list(pool.map(run, chosen))
    failed = 0
    for case, gave in zip(chosen, answers):
        if printing:
            print(f"=== {case['head']}", *case["inputs"], sep="\n")
            for name, _, got in gave:
                print(f"--- {name}", *[got if form(name)[2] else marked(got)] * (got != ""), sep="\n")
            print()
            continue
        failed += any(want != got for _, want, got in gave)
        for name, want, got in gave:
            if want != got:
                print(f"cases: {case['at']}: {case['head']}\n--- {name}, wanted:\n{marked(want)}\n--- got, {parting(want, got)}:\n{marked(got)}\n")
    if printing:
        return 0
    if names or AS:
        found = []
    print("".join(f"cases: {line}\n" for line in found), end="")
    if failed or found:
        print(f"cases: {failed} of {len(chosen)} cases fail" + (f", and {len(found)} things are wrong with the rules" if found else ""))
        return 1
    print(f"cases: {len(chosen)} cases" + (" hold" if names else " are listed as `show` lists them" if AS else f" of {rules}"))
    return 0


if __name__ == "__main__":
    sys.stdout.reconfigure(encoding="utf-8")
    sys.exit(main(sys.argv[1:]))
