#!/usr/bin/env python3
"""Writes texts, scripts and lists of events that a program might take long for, and runs it on them.

    texts.py FOLDER                        writes the inputs to FOLDER
    texts.py FOLDER PROGRAM                and runs PROGRAM on each: status, seconds, peak memory
    texts.py FOLDER PROGRAM --size 0.5     on inputs of half the size
    texts.py FOLDER PROGRAM --twice        on inputs of half and of full size, with the ratio of their times

    --only WORD     only what has the word in its line, for example a family or a command
    --limit S       seconds until a run is ended; 100 if nothing is said

Seconds are those of the processors. The statuses that are wanted follow docs/LANGUAGE.md and docs/FORMATS.md. Marked are another status, more than 10
seconds, more than 1 GiB, and with --twice a ratio above 2.2 where the longer run takes a second. The peak is never below that of this script, 15 MiB.
"""
import argparse
import itertools
import os
import resource
import shutil
import subprocess
import tempfile
import sys

MOST = 1 << 20
ROUTINES = 65_536
WORDS = 262_144
LARGEST = 2**63 - 1
CAPITALS = "ABCDEFGHIJKLMNOPQRSTUVWXYZ_"
LETTERS = CAPITALS + "abcdefghijklmnopqrstuvwxyz0123456789"


def names(prefix=""):
    """Names that are no keywords, the short ones first."""
    for length in itertools.count(1):
        for first in [""] if prefix else CAPITALS:
            for rest in itertools.product(LETTERS, repeat=length - (not prefix)):
                yield prefix + first + "".join(rest)


def fill(size, head, pieces, tail=""):
    """The head, as many of the pieces as fit, and the tail."""
    left, out = size - len(head) - len(tail), [head]
    for piece in pieces:
        left -= len(piece)
        if left < 0:
            break
        out.append(piece)
    return "".join(out + [tail])


def often(piece):
    return itertools.repeat(piece)


def part(count, size):
    return max(1, count * size // MOST)


def declared(size, kind="int", all_names=None):
    """Declarations of words in so many bytes, and their names."""
    found, text = [], []
    for name in all_names or names():
        size -= len(kind) + len(name) + 2
        if size < 0:
            break
        found.append(name)
        text.append(f"{kind} {name};")
    return "".join(text), found


def used(size, use, kind="int", all_names=None):
    """Half of the text declares words, and the other half uses them by the pieces that `use` gives."""
    text, found = declared(size // 2, kind, all_names)
    return fill(size, f"shared{{{text}}}main{{", use(found), "}")


def step(words, body, width, before="", after=""):
    return f"shared{{{words}}}main{{{before}parbegin routine[{width}](int w,int id){{{body}}}parend;{after}}}"


def steps(words, count, width):
    one = f"parbegin routine[{width}](int w,int id){{a[id]+=1;}}parend;"
    return f"shared{{int a[{words}];}}main{{for(int i=0;i<{count};i+=1){{{one}}}}}"


def many(size, statement, words="", function=""):
    """A main of this statement as often as it fits."""
    return fill(size, f"shared{{{words}}}{function}main{{", often(statement), "}")


def around(opening, depth, pieces, size, head="shared{}", before=""):
    """A main of as many of the pieces as fit, so deep in blocks."""
    return fill(size, f"{head}main{{{before}{opening * depth}", pieces, "}" * depth + "}")


def words_at_one_place(size):
    """Words whose names a table of names seeks from one place on."""
    source = os.path.join(os.path.dirname(os.path.abspath(__file__)), "same_place.c")
    with tempfile.TemporaryDirectory() as folder:
        program = os.path.join(folder, "same_place")
        subprocess.run(["cc", "-O2", "-o", program, source], check=True)
        found = subprocess.run([program, str(size // 11)], capture_output=True, text=True, check=True).stdout.split()
    return f"shared{{{declared(size - 15, 'int', found)[0]}}}main{{}}"


def chain_of_functions(size):
    """256 functions, each as long as fits, that call the one before."""
    each = (size - 200) // 256
    return "shared{}" + "".join(fill(each, f"int f{i}(int a){{a+=1;", often("a=1;"), f"return f{max(i - 1, 0)}(a);}}") for i in range(256)) + "main{print(f255(1));}"


def two_letters(count):
    return [a + b for a in CAPITALS for b in LETTERS][:count]


def calls_in_ifs(size):
    """Calls of the last of 256 functions, deep in choices."""
    all_names = two_letters(256)
    head = "shared{}" + "".join(f"void {name}(){{}}" for name in all_names)
    return around("if(true){", 61, often(f"{all_names[-1]}();"), size, head)


def routines(size):
    return part(ROUTINES, size)


def deep_calls(opening, value, closing, calls=63):
    """So many calls that wait for one another, each so deep in a body."""
    return f"shared{{}}int g(int n){{return n;}}int f(int n){{if(n<1){{return 0;}}{opening}return {value};{closing}return 0;}}main{{print(f({calls}));}}"


def calls_deep_in_calls(size):
    """Calls with eight arguments, the last of which is another such call."""
    call = "f(1,1,1,1,1,1,1," * 60 + "1" + ")" * 60
    function = "int f(" + ",".join(f"int {a}" for a in "abcdeghi") + "){return i;}"
    return many(size, "print(" + "1," * 63 + call + ");", "", function)


# Each family: the status of `check` and `build`, that of `eval` and `run`, and the text of a size.
TEXTS = {
    "words": (0, 0, lambda s: f"shared{{{declared(s - 15)[0]}}}main{{}}"),
    "words_of_one_name": (4, 4, lambda s: fill(s, "shared{", often("int x;"), "}main{}")),
    "words_of_64_bytes": (0, 0, lambda s: f"shared{{{declared(s - 15, 'int', names('A' * 61))[0]}}}main{{}}"),
    "tally_words": (0, 0, lambda s: f"shared{{{declared(s - 20, 'tally int')[0]}}}main{{}}"),
    "uses_of_the_last_word": (0, 0, lambda s: used(s, lambda n: often(f"{n[-1]}={n[-1]};"))),
    "uses_of_64_bytes": (0, 0, lambda s: used(s, lambda n: often(f"{n[-1]}={n[-1]};"), "int", names("A" * 61))),
    "a_print_of_each_word": (0, 0, lambda s: used(s, lambda n: (f"print({name});" for name in n))),
    "a_tally_in_each_routine": (0, 0, lambda s: used(s, lambda n: itertools.chain(
        [f"parbegin routine[{routines(s)}](int w,int id){{"], (f"{name}+=1;" for name in n[:8]), ["}parend;"]), "tally int")),
    "initial_values": (0, 0, lambda s: fill(s, f"shared{{int a[{part(WORDS, s)}]={{1", itertools.repeat(",-1", part(WORDS, s) - 1), "};}main{}")),
    "arrays": (4, 4, lambda s: fill(s, "shared{", (f"int {n}[262144];" for n in names()), "}main{}")),
    "parentheses": (0, 0, lambda s: many(s, "x=" + "(" * 62 + "1" + ")" * 62 + ";", "int x;")),
    "parentheses_too_deep": (4, 4, lambda s: many(s, "x=" + "(" * 64 + "1" + ")" * 64 + ";", "int x;")),
    "signs": (0, 0, lambda s: many(s, "x=" + "-" * 62 + "1;", "int x;")),
    "indices": (0, 0, lambda s: many(s, "a[0]=" + "a[" * 60 + "0" + "]" * 60 + ";", "int a[1];")),
    "calls_in_calls": (0, 0, lambda s: many(s, "x=" + "f(" * 60 + "1" + ")" * 60 + ";", "int x;", "int f(int a){return a;}")),
    "calls_of_8_in_calls": (0, 0, calls_deep_in_calls),
    "blocks": (0, 0, lambda s: many(s, "{" * 62 + "}" * 62)),
    "empty_blocks": (0, 0, lambda s: many(s, "{}")),
    "empty_blocks_deep": (0, 0, lambda s: around("{", 62, often("{}"), s)),
    "assignments_in_ifs": (0, 0, lambda s: around("if(true){", 62, often("x=1;"), s, "shared{int x;}")),
    "assignments_in_loops": (0, 0, lambda s: around("while(x==0){", 62, often("x=1;"), s, "shared{int x;}")),
    "added_in_ifs": (0, 0, lambda s: around("if(true){", 60, often("__+=1;"), s, "shared{int __;}", "".join(f"int {name}=0;" for name in two_letters(64)))),
    "calls_in_ifs": (0, 0, calls_in_ifs),
    "ifs": (0, 0, lambda s: many(s, "if(true){" * 62 + "}" * 62)),
    "else_ifs": (0, 0, lambda s: fill(s, "shared{int x;}main{if(x==1){}", often("else if(x==1){}"), "}")),
    "and_chains": (0, 0, lambda s: many(s, "assert(" + "&&".join(["true"] * 62) + ");")),
    "and_right": (0, 0, lambda s: many(s, "assert(" + "true&&(" * 30 + "true" + ")" * 30 + ");")),
    "and_too_long": (4, 4, lambda s: fill(s, "shared{}main{assert(true", often("&&true"), ");}")),
    "sums_too_long": (4, 4, lambda s: fill(s, "shared{}main{print(1", often("+1"), ");}")),
    "prints_of_64": (0, 0, lambda s: many(s, "print(" + ",".join("1" * 64) + ");")),
    "prints_of_nothing": (0, 0, lambda s: many(s, "print();")),
    "items": (4, 4, lambda s: fill(s, "shared{}main{print(1", often(",1"), ");}")),
    "arguments": (4, 4, lambda s: fill(s, "shared{}void f(){}main{f(1", often(",1"), ");}")),
    "a_text": (0, 0, lambda s: fill(s, 'shared{}main{print("', often("a"), '");}')),
    "a_text_in_a_loop": (0, 0, lambda s: fill(s, 'shared{}main{for(int i=0;i<1000;i+=1){print("', often("a"), '");}}')),
    "texts": (0, 0, lambda s: many(s, 'print("");')),
    "functions_256": (0, 5, chain_of_functions),
    "functions": (4, 4, lambda s: fill(s, "shared{}", (f"void {n}(){{}}" for n in names()), "main{}")),
    "functions_and_words": (4, 4, lambda s: fill(s, f"shared{{{declared(s // 2)[0]}}}", (f"void {n}(){{}}" for n in names("f_")), "main{}")),
    "parameters": (4, 4, lambda s: fill(s, "shared{}void f(int x", (f",int {n}" for n in names()), "){}main{}")),
    "locals": (4, 4, lambda s: fill(s, "shared{}main{", (f"int {n}=1;" for n in names()), "}")),
    "locals_of_blocks": (4, 4, lambda s: many(s, "{int a=1;}")),
    "locals_and_blocks": (4, 4, lambda s: fill(s, "shared{}main{{" + declared(s // 3)[0].replace(";", "=1;") + "}", often("{int a=1;}"), "}")),
    "routine_blocks": (0, 0, lambda s: many(s, "parbegin " + "routine[0](int w,int i){}" * 64 + "parend;")),
    "a_comment": (0, 0, lambda s: fill(s, "/*", often("*"), "*/shared{}main{}")),
    "comments": (0, 0, lambda s: fill(s, "", often("/**/"), "shared{}main{}")),
    "a_long_line": (0, 0, lambda s: fill(s, "//", often("a"), "\nshared{}main{}")),
    "blanks": (0, 0, lambda s: fill(s, "", often(" "), "shared{}main{}")),
    "an_open_comment": (4, 4, lambda s: fill(s, "shared{}main{}/*", often("*"))),
    "open_comments": (4, 4, lambda s: fill(s, "shared{}main{}", often("/*"))),
    "an_open_text": (4, 4, lambda s: fill(s, 'shared{}main{print("', often("a"))),
    "a_name": (4, 4, lambda s: fill(s, "shared{int ", often("a"), ";}main{}")),
    "a_number": (4, 4, lambda s: fill(s, "shared{}main{print(", often("9"), ");}")),
    "a_number_of_zeros": (0, 0, lambda s: fill(s, "shared{}main{print(", often("0"), ");}")),
    "fuel_by_calls": (0, 5, lambda s: f"shared{{}}int f(int n){{if(n<1){{return 1;}}return f(n-1)+f(n-1);}}main{{for(int i=0;i<{part(1000000, s)};i+=1){{print(f(19));}}}}"),
    "fuel_by_turns": (0, 5, lambda s: "shared{}main{while(true){}}"),
    "fuel_in_each_routine": (0, 5, lambda s: step("int a;", "while(true){}", part(16, s))),
    "calls_in_60_loops": (0, 0, lambda s: deep_calls("while(true){" * 60, "f(n-1)", "}" * 60)),
    "calls_in_60_ifs": (0, 0, lambda s: deep_calls("if(true){" * 60, "f(n-1)", "}" * 60)),
    "calls_in_60_signs": (0, 0, lambda s: deep_calls("", "-" * 60 + "f(n-1)", "")),
    "calls_in_60_calls": (0, 0, lambda s: deep_calls("", "g(" * 60 + "f(n-1)" + ")" * 60, "", 61)),
    "one_word_by_all": (0, 5, lambda s: step("int x;", "x=id;", routines(s))),
    "two_words_by_all": (0, 5, lambda s: step(f"int a[{ROUTINES}];", "a[id/2]=id;", routines(s))),
    "a_fault_in_the_last": (0, 5, lambda s: step(f"int a[{ROUTINES}];", f"a[id]=1/({routines(s)}-1-id);", routines(s))),
    "a_word_by_each": (0, 0, lambda s: step(f"int a[{routines(s)}];", "a[id]=id;", routines(s))),
    "all_words_by_one": (0, 0, lambda s: step(f"int a[{part(WORDS, s)}];", f"for(int i={part(WORDS, s)};i>0;i+=-1){{a[i-1]=i;}}", 1)),
    "all_words_by_some": (0, 0, lambda s: step(f"int a[{part(WORDS, s)}];", f"for(int i=id;i<{part(WORDS, s)};i+=w){{a[i]=i;}}", 256)),
    "tally_at_both_ends": (0, 0, lambda s: step("tally int t;", f"if(id%2==0){{t+={LARGEST};}}else{{t+=-{LARGEST};}}", routines(s) // 2 * 2, f"t=-{LARGEST}-1;")),
    "tally_past_the_end": (0, 5, lambda s: step("tally int t;", f"t+={LARGEST};", routines(s))),
    "steps": (0, 0, lambda s: steps(4, part(10_000, s), 4)),
    "steps_over_all_words": (0, 0, lambda s: steps(WORDS, part(1000, s), 1)),
}

if shutil.which("cc"):
    TEXTS["words_at_one_place"] = (0, 0, words_at_one_place)

# A text of each token alone.
for token in "shared int bool main parbegin if else true { } ( ) [ ] , ; = += - ! && || == a 1 \"\" @".split():
    TEXTS[f"token {token}"] = (4, None, lambda s, token=token: fill(s, "", often(token + (" " if token[0].isalnum() else ""))))

STEP = step(f"int a[{ROUTINES}];", "a[id]=id;", ROUTINES)
TWO_STEPS = steps(4, 2, 4)


def rows(size):
    """32 rows, each with its three lists as long as may be."""
    count = part(1024, size)
    return "".join(f"[[worker]]\nnumber={who}\n" + "".join(f"{name}={list(range(k, 3 * count + k, 3))}\n" for k, name in ((1, "lose"), (2, "repeat"), (3, "hold"))) for who in range(32))


# Each family of scripts: the status of `run`.
SCRIPTS = {
    "rows_of_lists": (0, rows),
    "rows": (8, lambda s: fill(s, "", (f"[[worker]]\nnumber={min(i, 31)}\n" for i in itertools.count()))),
    "a_list": (8, lambda s: fill(s, "[[worker]]\nnumber=1\nlose=[1", (f",{i}" for i in itertools.count(2)), "]\n")),
    "keys": (8, lambda s: fill(s, "", (f"{n}=1\n" for n in names()))),
    "tables": (8, lambda s: fill(s, "", (f"[{n}]\n" for n in names()))),
    "tables_in_tables": (8, lambda s: fill(s, "", (f"[{'a.' * 60}{n}]\n" for n in names()))),
    "dotted_keys": (8, lambda s: fill(s, "", (f"{'a.' * 60}{n}=1\n" for n in names()))),
    "a_dotted_key": (8, lambda s: fill(s, "a", often(".a"), "=1\n")),
    "brackets": (8, lambda s: fill(s, "a=", often("["))),
    "braces": (8, lambda s: fill(s, "a=", often("{a="))),
    "a_string": (8, lambda s: fill(s, 'a="', often("\\n"), '"\n')),
    "an_open_string": (8, lambda s: fill(s, 'a="""', often('""\n'))),
    "a_comment": (0, lambda s: fill(s, "#", often("a"))),
    "lines": (0, lambda s: fill(s, "", often("\n"))),
    "a_number": (8, lambda s: fill(s, "a=1", often("_1"))),
    "no_text": (8, lambda s: fill(s, "", often("\x00"))),
}


def lines(size, kind, before=""):
    """100,000 lines of one kind."""
    return fill(size, before, itertools.islice(kind, part(100_000, size)))


def counted(form):
    return (form.format(i=i, w=i % 32) for i in itertools.count())


# What closes the first step of two, so that all later arrivals are stale.
FIRST_STEP = "".join(f"claim {w}\nfinish {w}\narrive {w + 1}\n" for w in range(4))

# Each family of lists of events: the status of `sim`, the program, and the list.
EVENTS = {
    "claims": (0, STEP, lambda s: lines(s, counted("claim {w}\n"))),
    "fetches": (0, STEP, lambda s: lines(s, counted("fetch {w} {i}\n"))),
    "finishes": (0, STEP, lambda s: lines(s, counted("finish {w}\n"))),
    "arrivals": (0, STEP, lambda s: lines(s, often("arrive 1\n"))),
    "arrivals_of_one": (0, STEP, lambda s: lines(s, often("arrive 1\n"), "claim 0\nfinish 0\n")),
    "stale_arrivals": (0, TWO_STEPS, lambda s: lines(s, often("arrive 1\n"), FIRST_STEP)),
    "stops": (0, STEP, lambda s: lines(s, counted("stop {w}\n"))),
    "claims_and_finishes": (0, STEP, lambda s: fill(s, "", itertools.chain.from_iterable(zip(counted("claim {w}\n"), counted("finish {w}\n"))))),
    "whole": (0, STEP, lambda s: fill(s, "", (f"claim 0\nfinish 0\narrive {i}\n" for i in itertools.count(1)))),
    "comments": (0, STEP, lambda s: fill(s, "", often("#\n"))),
    "a_line": (8, STEP, lambda s: fill(s, "claim ", often("0"), "32")),
    "zeros": (0, STEP, lambda s: fill(s, "claim ", often("0"))),
}

# Each family of numbers of words: the wanted status, and the words.
NUMBERS = {
    "gen": (0, lambda s: ["gen", "4294967295", str(part(4096, s))]),
    "selfrun": (0, lambda s: ["selfrun", "4294967295", str(part(4096, s))]),
}


def written(path, make, size):
    """Writes an input in a process of its own, so that this one stays small."""
    child = os.fork()
    if child == 0:
        data = make(size)
        with open(path, "wb") as file:
            file.write(data if isinstance(data, bytes) else data.encode())
        os._exit(0)
    if os.waitpid(child, 0)[1] != 0:
        raise SystemExit(f"{path}: cannot be made")
    return path


def measured(words, limit):
    """Status, seconds of the processors, and MiB at most. A run that takes longer than the limit is ended, as status -9."""
    def bounded():
        resource.setrlimit(resource.RLIMIT_CPU, (limit, limit))

    child = subprocess.Popen(words, stdin=subprocess.DEVNULL, stdout=subprocess.DEVNULL, stderr=subprocess.DEVNULL, preexec_fn=bounded)
    _, status, usage = os.wait4(child.pid, 0)
    child.returncode = os.waitstatus_to_exitcode(status)
    return child.returncode, usage.ru_utime + usage.ru_stime, usage.ru_maxrss // 1024


def tell(given, name, command, wanted, words, half):
    """Writes an input, and runs the program on it where one is given."""
    if given.program is None:
        words()
        return
    before = measured([given.program, *half()], given.limit)[1] if given.twice else None
    status, seconds, mib = measured([given.program, *words()], given.limit)
    line = f"{name:24} {command:13} status {status:3} (wanted {wanted:2})  {seconds:7.2f} s  {mib:>5} MiB"
    marks = [mark for mark, holds in (("STATUS", status != wanted), ("SLOW", seconds > 10), ("LARGE", mib > 1024)) if holds]
    if before is not None:
        ratio = seconds / max(before, 0.01)
        line += f"  ratio {ratio:5.2f}"
        marks += ["MORE THAN TWICE"] if ratio > 2.2 and seconds > 1 else []
    print(line, *marks, flush=True)


def arguments(doc):
    """What is asked for, and the size of the inputs in bytes."""
    parser = argparse.ArgumentParser(description=doc, formatter_class=argparse.RawDescriptionHelpFormatter)
    parser.add_argument("folder")
    parser.add_argument("program", nargs="?")
    parser.add_argument("--size", type=float, default=1)
    parser.add_argument("--twice", action="store_true")
    parser.add_argument("--only", default="")
    parser.add_argument("--limit", type=int, default=100)
    given = parser.parse_args()
    os.makedirs(given.folder, exist_ok=True)
    return given, int(MOST * given.size)


def cases(folder, size):
    """Each family, command, wanted status, and the words behind the program's name, which are known once its inputs are written."""
    def file(name):
        return os.path.join(folder, name)
    for name, (status, ended, make) in TEXTS.items():
        path = file(f"{name.replace(' ', '_').replace('/', '')}.csl")
        yield name, "check", status, lambda path=path, make=make: ["check", written(path, make, size)]
        if ended is not None:
            yield name, "build", status, lambda path=path, make=make: ["build", written(path, make, size), file("module")]
            yield name, "eval", ended, lambda path=path, make=make: ["eval", written(path, make, size)]
            yield name, "run", ended, lambda path=path, make=make: ["run", written(path, make, size)]
    for name, (status, make) in SCRIPTS.items():
        yield name, "run --script", status, lambda name=name, make=make: [
            "run", written(file("p.csl"), lambda _: STEP, size), "--workers", "32", "--script", written(file(f"{name}.toml"), make, size), "--log", file("log")]
    for name, (status, program, make) in EVENTS.items():
        yield name, "sim", status, lambda name=name, program=program, make=make: [
            "sim", written(file("p.csl"), lambda _: program, size), written(file(f"{name}.events"), make, size), "--log", file("log")]
    for name, (status, words) in NUMBERS.items():
        yield "numbers", name, status, lambda words=words: words(size)


def main():
    given, size = arguments(__doc__)
    for (name, command, wanted, words), (*_, half) in zip(cases(given.folder, size), cases(given.folder, size // 2)):
        if given.only in f"{name} {command}":
            tell(given, name, command, wanted, words, half)


if __name__ == "__main__":
    main()
