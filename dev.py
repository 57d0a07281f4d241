"""The edit loop: ./dev.sh NAME [--edit=FILE] [WORDS...] checks one crate against the contracts of the crates below it. WORDS go to `rattle check`; of a
program, whose other proofs take minutes, `--only main` is checked where WORDS have no --only.

`rt check NAME` wants each crate below proved and built before it looks at NAME, and loads what their proofs rest on. Here the crates below are copied
to a folder of the user's cache, with a hole in place of each function's proof, which the check takes by the function's contract. Types, constants,
definitions and lemmas are as they are. So nothing below has to be proved first: after a contract or a definition has moved, its callers can be brought
in line at once, in any order.

What holds here holds given those contracts; that the crates below keep them is for `rt check`, and the verdict is `rt ci`'s. Where a step of NAME is
wrong, a line may add that a function below is not proved: that is its hole, and not the fault.

--edit=FILE puts a must-fail edit or a mutant into the copy, which then must not hold.
"""
import hashlib
import os
import re
import subprocess
import sys

# Parts of a crate that a check reads.
PARTS = ("src", "specs", "proofs")


def stop(why):
    print(f"dev: {why}", file=sys.stderr)
    sys.exit(2)


def read(path):
    with open(path, encoding="utf-8") as file:
        return file.read()


def listed():
    """The libraries that each crate uses, by crates.txt, and which crates are static libraries."""
    uses, static = {}, set()
    for line in read("crates.txt").splitlines():
        head, colon, tail = line.partition("#")[0].partition(":")
        if colon:
            name, *kind = head.split()
            uses[name] = tail.split()
            if "staticlib" in kind:
                static.add(name)
    return uses, static


def below(name, uses, found=None):
    """What the crate uses, and what that uses, the lowest first."""
    found = [] if found is None else found
    for it in uses.get(name, []):
        if it not in found:
            below(it, uses, found)
            found.append(it)
    return found


def name_of(text):
    """The words of a type, each with a capital, without lifetimes."""
    text = re.sub(r"'\w+", "", text).replace("&", " ref ")
    return "".join(it[0].upper() + it[1:] for it in re.findall(r"\w+", text))


def holes(crate):
    """A proof with a hole for each function of the crate, by its path. It goes by the layout of `rt fmt`."""
    texts, owner, cycle = {}, "", ""
    for file in sorted(os.listdir(f"crates/{crate}/src")):
        # The proofs of a file that a `mod` item names stand in a folder of its name.
        stem = os.path.splitext(file)[0]
        inside = "" if stem in ("lib", "main") else f"{stem}/"
        for line in read(f"crates/{crate}/src/{file}").splitlines():
            if told := re.match(r"impl(?:<.*?>)? (?:\w+::)*(\w+)(<.*>)? for (.*?) \{", line):
                # The proofs' name of such an impl: the type's words, the trait's name, its arguments' words.
                owner = name_of(told[3]) + told[1] + name_of(told[2] or "") + "/"
            elif told := re.match(r"impl(?:<.*?>)? (\w+)", line):
                owner = f"{told[1]}/"
            elif line == "}":
                owner = ""
            elif told := re.match(r"\s*#\[cycle\((\w+)\)\]", line):
                cycle = told[1]
            elif told := re.match(r"\s*(?:pub(?:\(\w+\))? )?(?:extern \"C\" )?fn (\w+)", line):
                # Functions that call themselves or one another have one proof together.
                together = cycle or (told[1] if os.path.isdir(f"crates/{crate}/proofs/+{told[1]}") else "")
                cycle = ""
                folder = f"+{together}" if together else inside + owner + told[1]
                module = f"+{together}" if together else folder.replace("/", ".") + ".Statement"
                spec = os.path.basename(folder) + "_spec"
                texts[f"proofs/{folder}/Proof.antt"] = (
                    f"use Rattle.{crate}.proofs.{module}.{{statement}}\n\npub {spec} : {{M : Type 1}} → statement M\n{spec} = ?\n"
                )
    return texts


def files(crate, is_below):
    """What a check reads of the crate, by path; of one below, no function's own proof."""
    texts = {}
    for part in PARTS:
        for at, _, names in os.walk(f"crates/{crate}/{part}"):
            for name in names:
                path = os.path.relpath(f"{at}/{name}", f"crates/{crate}")
                if not (is_below and part == "proofs" and os.path.dirname(path) != part):
                    texts[path] = read(f"{at}/{name}")
    return {**texts, **holes(crate)} if is_below else texts


def edited(edit, texts):
    """Puts a must-fail edit into the texts of a crate."""
    path = old = ""
    for line in read(edit).splitlines():
        word, _, text = line.partition(" ")
        if word == "file:":
            path = text.strip()
        elif word == "old:":
            old = text
        elif word == "new:":
            if texts.get(path, "").count(old) != 1:
                stop(f"{edit}: its old text does not stand once in {path}: {old}")
            texts[path] = texts[path].replace(old, text)


def write(room, texts):
    """Makes the folder hold these texts and nothing else; what is as it was stays untouched."""
    for at, _, names in os.walk(room):
        for name in names:
            if os.path.relpath(f"{at}/{name}", room) not in texts:
                os.remove(f"{at}/{name}")
    for path, text in texts.items():
        to = f"{room}/{path}"
        if not os.path.isfile(to) or read(to) != text:
            os.makedirs(os.path.dirname(to), exist_ok=True)
            with open(to, "w", encoding="utf-8") as file:
                file.write(text)


def report(said, name):
    """Prints what is said of the crate itself, and returns whether it holds. A hole below is no fault of it."""
    shown = holds = False
    faults = 0
    for line in said.splitlines():
        if line.startswith((" ", "\t")):
            # It goes on with the line before it.
            if shown:
                print(line)
            continue
        at = re.match(r"(?:note: |warning: )?(\S+?):\d+:\d+: ", line)
        of = re.match(r"(?:fn|struct|enum|impl) (\w+)(?:::\S*)?: ", line)
        is_error = bool(re.search(r"\berror[\[:]", line))
        if of:
            # (only what rests on holes of the crates below alone is as good as proved: another line may well end in "proved")
            rests_below = ": depends on a hole in " in line and f"`Rattle.{name}." not in line
            shown = of[1] == name and not rests_below and not line.endswith((": proved", ": no holes"))
            faults += shown
        elif at:
            is_own = not at[1].startswith(("../", "/"))
            shown = is_error or is_own
            faults += is_error or is_own and " is not admitted" in line
        elif re.match(r"(so far|statements|library|logic|crate|axioms|only=|holes=)", line):
            shown = False
            holds = holds or line.startswith(("holes=", "logic=proved", "only="))
        else:
            shown = True
            faults += is_error
        if shown:
            print(line)
    return holds and not faults


def main(words):
    if not words or words[0].startswith("-"):
        stop("usage: ./dev.sh NAME [--edit=FILE] [WORDS...]")
    name, *words = words
    edits = [os.path.abspath(it.partition("=")[2]) for it in words if it.startswith("--edit=")]
    words = [it for it in words if not it.startswith("--edit=")]
    os.chdir(os.path.dirname(os.path.abspath(__file__)))
    if not os.path.isdir(f"crates/{name}/src"):
        stop(f"crates/{name} is no crate")
    uses, static = listed()
    libraries = below(name, uses)
    own = [it for it in libraries if it in uses]
    kit = os.path.dirname(subprocess.run(["rt", "doc"], stdout=subprocess.PIPE, text=True, check=True).stdout.strip())
    cache = os.environ.get("XDG_CACHE_HOME") or os.path.expanduser("~/.cache")
    # (outside the repository, where the gate refuses a source that is no crate's; one room for each checkout)
    room = f"{cache}/ferruleslate/dev/{hashlib.sha256(os.getcwd().encode()).hexdigest()[:12]}/{name}"

    texts = files(name, is_below=False)
    # The check has all of those below as source, so it would not miss one on the crate's own line.
    for it in own:
        if it not in uses[name] and any(re.search(rf"(?<![\w.]){it}::|\bRattle\.{it}\.", text) for text in texts.values()):
            stop(f"{name} uses {it}, which its line in crates.txt lacks")
    for it in edits:
        edited(it, texts)
    write(f"{room}/crates/{name}", texts)
    for it in own:
        write(f"{room}/crates/{it}", files(it, is_below=True))

    root = "src/main.rt" if "src/main.rt" in texts else "src/lib.rt"
    call = [f"{kit}/bin/rattle", "check", "--crate-name", name, root]
    for it in sorted({"core", "std", *libraries} - {*own}):
        call += ["--extern", f"{it}={kit}/rlibs/{it}.rlib"]
    call += ["-L", f"dependency={kit}/rlibs"]
    for it in own:
        call += ["--lib", f"{it}:{','.join(dict.fromkeys(['core', 'std', *uses[it]]))}={room}/crates/{it}/src/lib.rt"]
    call += ["--antt-project", f"{kit}/rattle/logic/antt-project.json", "--logic-built", f"{kit}/logic_built"]
    call += ["--incremental", f"{room}/kept", "--allow-holes"]
    if name in static:
        call += ["--crate-type", "staticlib"]
    if root == "src/main.rt" and not any(it.startswith("--only") for it in words):
        words += ["--only", "main"]
    if not any(it.startswith("--jobs") for it in words):
        words += ["--jobs", "2"]
    os.makedirs(f"{room}/kept", exist_ok=True)
    how = {"stdout": subprocess.PIPE, "stderr": subprocess.STDOUT, "text": True, "errors": "replace"}
    ran = subprocess.run([*call, *words], cwd=f"{room}/crates/{name}", **how)
    with open(f"{room}/out", "w", encoding="utf-8") as file:
        file.write(ran.stdout)
    only = re.search(r"--only[ =](\S+)", " ".join(words))
    what = name + (f", as far as {only[1]}," if only else "")
    if report(ran.stdout, name):
        print(f"dev: {what} holds, given the contracts below it")
        return 0
    print(f"dev: {what} does not hold; the whole output is {room}/out")
    return 1


if __name__ == "__main__":
    sys.exit(main(sys.argv[1:]))
