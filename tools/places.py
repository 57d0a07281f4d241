"""Lists the places that docs/DESIGN-PASS.md counts, in src/ of every crate: python3 tools/places.py [POINT..], from the top of a checkout.

A place is a line of src/ or a function, by patterns that anyone can read below; what a pattern finds need not be wrong. POINT is 1 to 8; with none all
are counted and no place is listed.
"""
import glob
import itertools
import os
import re
import sys

FUNCTION = re.compile(r"^( *)(?:pub(?:\(\w+\))? )?(?:const )?(?:extern \"C\" )?fn (\w+)")


def lines():
    """Every line of src/ with its file and number, comments left out."""
    for file in sorted(glob.glob("crates/*/src/*.rt")):
        with open(file, encoding="utf-8") as text:
            for number, line in enumerate(text.read().splitlines(), 1):
                yield file, number, line.split("//")[0].rstrip()


def functions():
    """Each function: file, line number, name, head (to the brace) and body."""
    for file, group in itertools.groupby(lines(), key=lambda it: it[0]):
        rows = list(group)
        at = 0
        while at < len(rows):
            told = FUNCTION.match(rows[at][2])
            if not told:
                at += 1
                continue
            indent, begin, head = told[1], at, []
            while rows[at][2] != f"{indent}{{" and not rows[at][2].endswith((" {", ";")):
                head.append(rows[at][2])
                at += 1
            head.append(rows[at][2])
            body = []
            while at < len(rows) and rows[at][2] != f"{indent}}}" and not rows[at][2].endswith(";" if not body and rows[at][2].endswith(";") else "\0"):
                at += 1
                if at < len(rows):
                    body.append(rows[at][2])
            yield file, rows[begin][1], told[2], head, body
            at += 1


def found(pattern):
    return [f"{file}:{number}: {line.strip()}" for file, number, line in lines() if re.search(pattern, line)]


def params(head):
    """The parameters of a function's head, `name: type` each, without lifetimes."""
    text = " ".join(it.strip() for it in head)
    inner = re.sub(r".*?fn \w+(?:<.*?>)?\((.*)", r"\1", text)
    depth, end = 1, 0
    for end, char in enumerate(inner):
        depth += char in "([" or 0
        depth -= char in ")]" or 0
        if depth == 0:
            break
    parts, depth, part = [], 0, ""
    for char in inner[:end]:
        depth += char in "([<" or 0
        depth -= char in ")]>" or 0
        if char == "," and depth == 0:
            parts.append(part)
            part = ""
        else:
            part += char
    parts.append(part)
    return [re.sub(r"'\w+ ", "", it.strip()) for it in parts if ":" in it]


def point_1():
    yield "own enums (read which have the shape of Option or Result)", found(r"^(pub )?enum ")
    yield "fields that are a flag or an answer beside a value", found(r"^    (pub )?\w+: (bool|\w*Answer),")
    yield "constants that number a kind or a refusal", found(r"^pub const (SOURCE|STEINER|TERMINAL|WRONG_\w+|TOO_MANY|OUTSIDE|BAD_KEEPOUT|NO_SUCH_NODE|NOT_A_CHILD|NEW_SOURCE|FULL|NO_ROOM)\b")
    numbers = [f"{f}:{n}: fn {name}" for f, n, name, head, _ in functions()
               if re.search(r"\b(kind|which|refused|refusal)\w*: u(8|16)|fn (kind|refusal)\w*\(.*-> u(8|16)|fn (refuse|refused|put_refusal|write_refusal)\(.*: u8", " ".join(head))]
    yield "functions that take or give a kind or a refusal as a number", numbers
    yield "numbers that stand for none, where they are tested or given", found(r"\b(NO_NODE|NO_RANK|NOWHERE|FREE)\b(?!:)")


def plain(body, name):
    """A body without its types' widths, constants, numbers and own name."""
    text = "\n".join(it.strip() for it in body)
    text = re.sub(rf"\b{name}\b", "SELF", text)
    text = re.sub(r"\b([iu](8|16|32|64)|usize)\b", "T", text)
    text = re.sub(r"_(u8|u16|u32|u64|i32)\b", "_T", text)
    text = re.sub(r"\b(\w+::)*[A-Z][A-Z_0-9]*\b", "K", text)
    return re.sub(r"\b\d+(T)?\b", "N", text)


def point_2():
    groups = {}
    for file, number, name, head, body in functions():
        kinds = [it.split(":", 1)[1].strip() for it in params(head)]
        shape = plain(body, name)
        names = {it.split(":", 1)[0].strip().replace("mut ", "") for it in params(head)}
        for at, it in enumerate(sorted(names, key=lambda n: (-len(n), n))):
            shape = re.sub(rf"\b{re.escape(it)}\b", f"p", shape)
        locals_ = re.findall(r"let (?:mut )?(\w+)", shape)
        for it in locals_:
            shape = re.sub(rf"\b{it}\b", "v", shape)
        groups.setdefault((re.sub(r"\b([iu](8|16|32|64)|usize)\b", "T", str(len(kinds))), shape), []).append(f"{file}:{number}: fn {name}")
    places = [f"{' = '.join(it)}" for it in groups.values() if len(it) > 1]
    yield "groups of functions whose bodies differ in types, constants and names alone", places
    yield "functions named after a width or a kind of element", [f"{f}:{n}: fn {name}" for f, n, name, _, _ in functions() if re.search(r"(_u8|_u16|_u32|_u64|_i32|8|16|32)(_at)?$|^(u16|u32|u64|i32)_at$", name)]


def point_3():
    yield "while loops", found(r"^\s*while ")
    yield "of these, loops over a counter", [it for it in found(r"^\s*while (0 < \w+|\w+ (<|!=) )")]


def point_4():
    yield "functions that compare, choose the least or greatest, or convert by hand", [
        f"{f}:{n}: fn {name}" for f, n, name, _, _ in functions()
        if re.search(r"^(same|same_name|min|max|larger|least|lesser|greater|closer|at_least_one|min_dist|at_most|below|wide|widen|signed|unsigned|unsigned_abs|room|after|within|within_list|either|both_contain|join8|join16|join32|kind_of_name|number_of_name|name_of|parent_of|index_of_parent|type_in|kind_of|stands_after|begins|one_more|two_more|one_fewer|number_of|refusal|answer_of)$", name)]
    yield "casts by `as`", found(r" as (u8|u16|u32|u64|usize|i32|i64|f64)\b")


def point_5():
    sets = {}
    heads = []
    for file, number, name, head, _ in functions():
        mine = sorted(set(params(head)))
        heads.append((file, number, name, mine))
        for group in itertools.combinations(mine, 3):
            sets.setdefault(group, []).append(name)
    often = {group: names for group, names in sets.items() if len(names) >= 3}
    places = [f"{f}:{n}: fn {name}" for f, n, name, mine in heads if any(set(group) <= set(mine) for group in often)]
    yield "functions with three parameters that travel together in three functions or more", places
    facts = {}
    for file, number, name, head, _ in functions():
        for line in head:
            if told := re.search(r"requires (?:\w+ )?\{ (.*) \}", line):
                for part in re.split(r" × ", told[1]):
                    word = part.strip("( ").split(" ")[0]
                    if word[:1].isupper():
                        facts.setdefault(word, []).append(f"{file}:{number}: fn {name}")
    yield "facts in the requires of three functions or more", [f"{word}: {len(it)}" for word, it in sorted(facts.items()) if len(it) >= 3]


def point_6():
    yield "fields that are arrays", found(r"^    (pub )?\w+: \[.*;")
    yield "fields that count them", found(r"^    (pub )?\w*count\w*: ")
    yield "parameters that are a slice beside its length", [f"{f}:{n}: fn {name}" for f, n, name, head, _ in functions()
                                                           if any("[" in it for it in params(head)) and any(re.match(r"(mut )?(n|count|size): (usize|u16)", it) for it in params(head))]


def point_7():
    yield "switches on which step to run", found(r"^\s*match (call|way|kind|mode)\b|\bif (scripts|call == )")
    yield "writers that are run twice, once to measure", [f"{f}:{n}: fn {name}" for f, n, name, _, body in functions() if any("let mut none = [0" in it for it in body)]


def point_8():
    answers = sorted(glob.glob("crates/*/proofs/**/Answers.antt", recursive=True))
    lemmas = [it for it in sorted(glob.glob("crates/*/proofs/*.antt")) if not it.endswith("/Lib.antt")]

    def count(files):
        return sum(len(open(it, encoding="utf-8").read().splitlines()) for it in files)

    yield f"files of answers, {count(answers)} lines", answers
    yield f"files of lemmas, {count(lemmas)} lines", lemmas
    goals = []
    for file in answers:
        with open(file, encoding="utf-8") as text:
            goals += [f"{file}: {it}" for it in text.read().splitlines() if re.match(r"pub (\S+) : goal\.", it)]
    yield "goals that are answered", goals
    inner = [it for it in sorted(glob.glob("crates/*/proofs/**/*.antt", recursive=True) + glob.glob("crates/*/specs/*.antt")) if re.search(r"^use (mathlib|Prim|lib)\.", open(it, encoding="utf-8").read(), re.M)]
    yield "files that import by the library's inner paths", inner


def main():
    chosen = [int(it) for it in sys.argv[1:]] or range(1, 9)
    for point in chosen:
        for what, places in globals()[f"point_{point}"]():
            print(f"{point}. {what}: {len(places)}")
            if len(sys.argv) > 1:
                for it in places:
                    print(f"   {it}")


if __name__ == "__main__":
    os.chdir(os.path.join(os.path.dirname(os.path.abspath(__file__)), ".."))
    main()
