"""What reads a text, in the code of the libraries: a line for each function that does, with its loads and its calls in the order of the code (looks.py).

A function's code is a module that `rattle check --generated` writes, FUNCTION/Code/Mir.antt, or +CYCLE/Code/+FUNCTION.antt where functions call one
another. Its definitions name one another (s-1 is the first statement, t-1 that one and all behind it) and `function` is the whole; where that is
`by_name` with the fields of the types put in, `by_name` is read. mir/Syntax.antt of the kit's logic says what each word of it means. A word that is not
known here stops the reader, so that no call and no load goes unseen.

A closure is a function of its own, and so is what is derived. A call that hands functions to what it calls (`Syntax.impl`) counts as a call of each; what
was handed to a function and is called in it (`Syntax.method`) counts where it was handed. Of std's functions, each that is called for bytes, or for words of
32 bits, counts as a load of them by its own name, but for those that hand on slices, places and references (QUIET): what loads through a reference
that one of these gives is seen as a load where it stands.
"""
import glob
import hashlib
import os
import re

TOKEN = re.compile(r"[(){};,]|[^\s(){};,]+")
PART = re.compile(r"abbrev pub (\S+) : .*?\n\1 =\s", re.S)
CALLED = re.compile(r"use Rattle\.(\w+)\.(?:below\.(\w+)\.)?(?:proofs|specs\.contracts)\.(\S+)\.(Symbol|Key)(?: as (\S+))?")
IMPORT = re.compile(r"use (?:mathlib\.Core\.List|mir\.\w+)(?: as \S+)?")
FIELDS = "lifetimes outlives ty_params givens params locals body".split()
# what a load through a reference is called in the table, by its width
LOADS = {"w8": "byte", "w32": "word"}
# the three functions by which a closure is called
ADAPTER = re.compile("[+](Fn::call|FnMut::call_mut|FnOnce::call_once)$")
# std's crates
STD = "std core".split()
# functions of std that load no byte and no word through a reference: they hand on slices, places and references, take values, or print
QUIET = re.compile(
    "core:iter:(slices|adapters|closures):.*|std:iter:Iterator:(all|count|filter|fold|position|rev|rposition|size_hint|take_while)"
    "|core:slice:slice[+]T:(get|is_empty|last)|core:slice:index:.*:pick|core:slice:reads:slice[+]T:split_at|core:slice:edits:slice[+]T:fill"
    "|core:int:.*|core:fmt:.*|std:fmt:.*|std:option:Option:(is_none|is_some|is_some_and|ok_or|unwrap_or)|std:result:Result:is_err|std:cmp:Ordering:(and_eq|then)"
    "|std:prelude:(AnyInto|Bool|Chunks|ChunksExact|Iterator|OptionFromResidual|OptionTry|ResultFromResidual|ResultTry|Rev|U32From|U64|UsizeFrom|UsizeHash|UsizePartial).*"
)
KNOWN = """assign seq skip block loop cond switch arm default no_default exit return unreachable call lend_static
copy place field variant deref addr_of rv_opd op1 op2 aggregate repeat int int_neg int_big opd_true opd_false opd_unit
add sub mul div rem bit_and bit_or bit_xor shl shr eq ne lt le offset bit_not cast unsigned signed
c_int c_ints c_bool c_unit c_repeat c_parts cnil ccons local value_local memory_slot w8 w16 w32 w64 w128
ty_int ty_bool ty_ptr ty_ref ty_array ty_unit ty_struct ty_enum ty_named tnil tcons ttnil ttcons dnil dcons named bound_lv erased static imm mut impl given method a_type ty_param""".split()
KNOWN = {*(f"Syntax.{it}" for it in KNOWN), "List.[]", "List.◌∷◌", ","}


class Strange(Exception):
    pass


def named(crate, path):
    """Returns a function's name, one of std's has no `::` in it; by which function a closure is called, or one that is handed as it is, says nothing."""
    name, ways = ADAPTER.subn("", (":" if crate in STD else "::").join([crate, *path]))
    last = name.rpartition("::")[2]
    return last.replace("++", "::") if ways and "++" in last else name


def code_in(folder):
    """Returns the files with the code of functions below a folder that rattle wrote, by the functions' names."""
    found = {}
    for file in glob.glob(f"{folder}/**/Code/*.antt", recursive=True):
        crate, *path = os.path.relpath(file, folder).split("/")[:-2]
        last = os.path.basename(file)
        if last != "Mir.antt":
            path[-1] = last[1:-5]
        path = [re.fullmatch(r"Rattle-(\w+)-proofs", crate)[1], *path]
        if not ADAPTER.search("::".join(path)):
            found["::".join(path)] = file
        elif does("::".join(path), file)[0] != [named(path[0], path[1:])]:
            raise Strange(f"{'::'.join(path)} does more than to call its function")
    return found


def parts_of(file):
    """Returns the definitions in a function's code, each as its tokens, and the functions that it imports to call, by the names that it calls them."""
    with open(file, encoding="utf-8") as it:
        head, *rest = it.read().strip().split("\n\n")
    parts, called = {}, {}
    for line in (it for it in head.split("\n") if not it.startswith("--")):
        found = CALLED.fullmatch(line)
        if found:
            crate, below, path, module, other = found.groups()
            crate = below or crate
            called[f"{other or module}.name"] = named(crate, path.split("."))
        elif not IMPORT.fullmatch(line):
            raise Strange(line)
    for text in rest:
        found = PART.match(text)
        if not found:
            raise Strange(text[:80])
        parts[found[1]] = TOKEN.findall(text[found.end() :])
    return parts, called


def fields_of(parts):
    """Returns the fields of a function's record, each as its tokens."""
    whole = parts["function"]
    if whole[:1] == ["MapTy.spell_fn"]:
        whole = parts[whole[-1]]
    fields = [[]]
    for token in whole[2:-1]:
        fields.append([]) if token == ";" else fields[-1].append(token)
    found = {it[0]: it[2:] for it in fields if it}
    if whole[:2] != ["record", "{"] or [*found] != FIELDS:
        raise Strange(" ".join(whole[:40]))
    return found


def tokens_of(parts, tokens):
    """Yields these tokens, and in the place of a definition's name what it stands for, in brackets."""
    todo = [iter(tokens)]
    while todo:
        token = next(todo[-1], None)
        if token is None:
            todo.pop()
            if todo:
                yield ")"
        elif token in parts:
            yield "("
            todo.append(iter(parts[token]))
        else:
            yield token


def does(function, file):
    """Returns what a function's code does, in order: its calls, its loads and the ends of its loops; and a sum over all of it."""
    try:
        return does_in(*parts_of(file))
    except Strange as why:
        raise Strange(f"{function}: its code has what tools/looks/reads.py does not know: {why}") from None


def called_as(name, widths):
    """Returns what a call counts as: one of std's is a load by its name of what it is called for, bytes or words, where it loads any."""
    if name.partition(":")[0] not in STD:
        return [name]
    if QUIET.fullmatch(name):
        return []
    widths = ["w8"] if widths is None else sorted(widths)
    return [f"{LOADS[it]}:{name.rpartition(':')[2]}" for it in widths if it in LOADS]


def does_in(parts, called):
    fields = fields_of(parts)
    whole = [*tokens_of(parts, fields["locals"]), ";", *tokens_of(parts, fields["body"])]
    body = whole[whole.index(";") + 1 :]
    found, inside, last, before = [], [set()], "", ""
    # the calls whose callee has arguments of its own: how deep it stands, its name, what it is called for and what it is handed
    calls = []
    for token in body:
        if token == "(":
            inside.append({"Syntax.call"} if last == "Syntax.call" else set())
        elif token == ")":
            if calls and calls[-1][0] == len(inside):
                _, name, widths, handed = calls.pop()
                found += [*called_as(name, widths), *dict.fromkeys(handed)]
            if "Syntax.loop" in inside.pop():
                found.append("]")
        elif last == "Syntax.call" or (last == "(" and before == "Syntax.call"):
            if token in called and last == "(":
                calls.append((len(inside), called[token], set(), []))
            elif token in called:
                found += called_as(called[token], None)
            elif token != "Syntax.method":
                raise Strange(f"a call of {token}")
        elif token in called:
            raise Strange(token)
        elif token.startswith('"') and token.endswith('"'):
            crate, *path = token[1:-1].split("::")
            if calls:
                calls[-1][3].extend(called_as(named(crate, path), calls[-1][2]))
        elif not (token in KNOWN or token.isdigit()):
            raise Strange(token)
        elif token in ("Syntax.copy", "Syntax.deref", "Syntax.loop"):
            inside[-1].add(token)
            if token == "Syntax.loop":
                found.append("[")
        elif last == "Syntax.ty_int" and calls:
            calls[-1][2].add(token[7:])
        elif last == "Syntax.ty_int" and token[7:] in (*LOADS, "w16", "w128"):
            at = [n for n, it in enumerate(inside) if "Syntax.copy" in it]
            if at and any("Syntax.deref" in it for it in inside[at[0] + 1 :]):
                if token[7:] not in LOADS:
                    raise Strange(f"a load of {token}")
                found.append(LOADS[token[7:]])
        last, before = token, last
    text = " ".join(called.get(it, it) for it in whole)
    return found, hashlib.sha256(text.encode()).hexdigest()[:12]


def is_of(load, it):
    """Whether this is a load of that kind, by a reference or by a function of std."""
    return it == load or it.startswith(f"{load}:")


def has(load, does):
    return any(is_of(load, it) for it in does)


def crate(function):
    return function.partition("::")[0]


def closed(functions, named, given=()):
    """Returns these functions, and all that call one of them, but for those in crates that are given."""
    found, more = {*functions}, True
    while more:
        new = {f for f, does in named.items() if f not in found and crate(f) not in given and found & {*does}}
        found, more = found | new, new
    return found


def found_as(name, code, caller):
    """Returns a function's own name: a crate may pass it on from a module of its own by `pub use`."""
    if "::" not in name or name in code:
        return name
    own = [it for it in code if crate(it) == crate(name) and it.endswith(f"::{name.partition('::')[2]}")]
    if len(own) != 1:
        raise Strange(f"{caller} calls {name}, whose code is not at hand")
    return own[0]


def table(code, crates, parser, lined, decides, whole):
    """Returns the table's lines, by their functions, of all that these functions do.

    `crates` are in order; of these `parser` are the parser's, `lined` have line words; `decides` judge a line by its kind, and the lines of `whole` end
    with the sum of all that they do.
    """
    named = {f: [found_as(g, code, f) for g in it[0]] for f, it in code.items()}
    # bytes that crates beside the parser load are no text's, unless the parser's crates call them
    tells = {f for f, it in named.items() if f in decides or (has("byte", it) and crate(f) in parser)}
    reads = closed(tells, named)
    loads = closed({f for f, it in named.items() if has("word", it) and crate(f) not in lined}, named, lined)
    # load bytes in a crate beside the parser: calls of these from the parser's crates count
    beside = closed({f for f, it in named.items() if has("byte", it) and crate(f) not in parser}, named, parser)
    lines = {}
    for f in sorted(named, key=lambda f: (crates.index(crate(f)), f)):
        words = ["kind"] if f in decides else []
        for it in named[f]:
            is_load = is_of("byte", it) and crate(f) in parser
            is_word = crate(f) in lined and (is_of("word", it) or it in loads)
            is_beside = crate(f) in parser and it in beside
            if it in ("[", "]") or is_load or it in reads or is_word or is_beside:
                words += [it]
        text = " ".join(["", *words])
        while " [ ]" in text:
            text = text.replace(" [ ]", "")
        if f in whole:
            text += f" = {code[f][1]}"
        if text:
            lines[f] = f"{f}:{text}"
    return lines
