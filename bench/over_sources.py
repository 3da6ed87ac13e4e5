#!/usr/bin/env python3
"""Checks a crate before those below it are proved: python3 bench/over_sources.py CRATE [--own] [rattle's flags]

`rt check` wants every crate below to be proved and built. This takes their text in place of what was built, with a hole
in place of each of their functions' proofs, so that a crate is checked over contracts, definitions and lemmas alone. It
gives no verdict; it tells which goals are open. What `rt ci` kept of a crate below, on this machine and of the same
text, is taken as it was built, which is much faster; where more than 24 crates are taken as text a check needs 9 GB.

  --only ''                       names and types of the code, in seconds; not the text of contracts
  --only PATH --allow-holes       a function or a module, and what it calls
  --own --allow-holes             every module of the crate
  --whole=NAME                    a crate below with its own proofs

A function is done where its line reads `no holes`, or `depends on a hole in ..` of the crates below alone.
"""
import fcntl
import os
import re
import shutil
import subprocess
import sys
from importlib.machinery import SourceFileLoader

KIT_BIN = os.path.dirname(os.path.realpath(shutil.which("rt")))
sys.path.insert(0, KIT_BIN)
rt = SourceFileLoader("rt", f"{KIT_BIN}/rt").load_module()
rtlib = rt.rtlib
KIT = rtlib.KIT
ROOT = os.path.dirname(os.path.dirname(os.path.abspath(__file__)))
# Stubs stand outside the repository, in which links are refused.
STUBS = os.path.expanduser("~/.cache/zitictl-stubs") + ROOT
TOKEN = re.compile(r"\bimpl\b|\btrait\s+(\w+)|\bmod\s+(\w+)\s*\{|\bfn\s+(\w+)|[{};]")
CLAUSE = re.compile(r"\b(requires|ensures|ghost|decreases)\b|\*")


def base_of(text):
    """The last segment of a type's or a trait's path, without its arguments."""
    return re.sub(r"<.*", "", text.strip().lstrip("&").strip(), flags=re.S).split("::")[-1].strip()


def owner_of(header):
    """The name under which rattle keeps the functions of an `impl`, or none where it is not known."""
    header = re.sub(r"\bwhere\b.*", "", header, flags=re.S).strip()
    if header.startswith("<"):
        depth = 0
        for place, letter in enumerate(header):
            depth += (letter == "<") - (letter == ">" and header[place - 1] != "-")
            if depth == 0:
                header = header[place + 1 :]
                break
    parts = re.split(r"\bfor\b", header)
    if len(parts) == 2 and base_of(parts[0]) == "From":
        return None
    name = "".join(base_of(it) for it in reversed(parts))
    return name[:1].upper() + name[1:]


def functions_in(text, module):
    """The path of each function of a file that has a body of its own."""
    text = re.sub(r'"(?:\\.|[^"\\])*"', '""', re.sub(r"//[^\n]*", "", text))
    stack, coming = [], None
    for found in TOKEN.finditer(text):
        word = found.group(0)
        is_inside = any(kind == "fn" for kind, _ in stack)
        if word == "impl":
            if not is_inside and not (coming and coming[0] == "fn"):
                coming = ("impl", owner_of(text[found.end() : text.index("{", found.end())]))
        elif word.startswith("trait"):
            coming = ("trait", None)
        elif word.startswith("mod"):
            stack.append(("mod", found.group(2)))
        elif word.startswith("fn"):
            coming = coming if is_inside else ("fn", found.group(3))
        elif word == "{":
            line = text[text.rfind("\n", 0, found.start()) + 1 : found.start()]
            is_clause = coming and coming[0] == "fn" and CLAUSE.search(line) and not re.search(r"\bfn\b", line)
            if is_clause or not coming or (stack and stack[-1][0] == "clause"):
                stack.append(("clause" if is_clause else "", None))
                continue
            owners = [name for kind, name in stack if kind in ("impl", "trait")]
            if coming[0] == "fn" and None not in owners:
                yield [*module, *[name for kind, name in stack if kind == "mod"], *owners[-1:], coming[1]]
            stack.append(coming)
            coming = None
        elif word == "}":
            if stack:
                stack.pop()
        elif coming and coming[0] == "fn" and not any(kind == "clause" for kind, _ in stack):
            coming = None


def functions_of(folder):
    for at, _, names in os.walk(f"{folder}/src"):
        for name in names:
            if name.endswith(".rt"):
                module = os.path.relpath(f"{at}/{name}", f"{folder}/src")[:-3].split("/")
                with open(f"{at}/{name}", encoding="utf-8") as it:
                    yield from functions_in(it.read(), module[:-1] if module[-1] in ("lib", "main", "mod") else module)


def stub_of(crate, skipped):
    """Makes a copy of a crate with a hole for each proof of a function, and returns its folder."""
    to, new = f"{STUBS}/{crate.name}", f"{STUBS}/{crate.name}.new"
    shutil.rmtree(new, ignore_errors=True)
    os.makedirs(new)
    for part in ("src", "specs"):
        if os.path.isdir(f"{crate.folder}/{part}"):
            os.symlink(os.path.abspath(f"{crate.folder}/{part}"), f"{new}/{part}")
    if os.path.isdir(f"{crate.folder}/proofs"):
        shutil.copytree(f"{crate.folder}/proofs", f"{new}/proofs")
    for path in functions_of(crate.folder):
        if f"{crate.name}/{'/'.join(path)}" in skipped:
            continue
        at = f"{new}/proofs/{'/'.join(path)}"
        os.makedirs(at, exist_ok=True)
        for name in os.listdir(at):
            if os.path.isfile(f"{at}/{name}"):
                os.remove(f"{at}/{name}")
        with open(f"{at}/Proof.antt", "w", encoding="utf-8") as it:
            it.write(f"use Rattle.{crate.name}.proofs.{'.'.join(path)}.Statement as stated\n\n")
            it.write(f"pub {path[-1]}_spec : {{M : Type 1}} → stated.statement M\n{path[-1]}_spec = ?\n")
    shutil.rmtree(to, ignore_errors=True)
    os.rename(new, to)
    return to


def take_kept(kept, crate):
    """Takes what `rt ci` kept of a crate, and returns whether it did."""
    key = kept.key(crate)
    if not kept.at or not os.path.isdir(kept.place(crate, False, key)):
        return False
    stamp = f"{crate.folder}/out/rlib/stamp"
    if not (os.path.isfile(stamp) and open(stamp, encoding="utf-8").read() == crate.stamp()):
        shutil.rmtree(f"{crate.folder}/out/rlib", ignore_errors=True)
        if not kept.give(crate, False, key):
            return False
        os.makedirs(f"{crate.folder}/out/rlib", exist_ok=True)
        with open(stamp, "w", encoding="utf-8") as it:
            it.write(crate.stamp())
    kept.is_built(crate)
    return crate.is_built()


def words_of(crate, built, flags, skipped):
    sources = [it for it in crate.below() if it.name not in built]
    whole = {it.partition("=")[2] for it in flags if it.startswith("--whole=")}
    words = ["--crate-name", crate.name, "src/main.rt" if crate.is_program else "src/lib.rt"]
    for name in sorted({"core", *[lib for it in [crate, *sources] for lib in it.of_kit]}):
        words += ["--extern", f"{name}={KIT}/rlibs/{name}.rlib"]
    words += ["-L", f"dependency={KIT}/rlibs"]
    named = {it.name for user in [crate, *sources] for it in user.deps}
    for it in crate.below():
        if it.name in built:
            words += ["--extern", f"{it.name}={it.rlib}"] * (it.name in named)
            words += ["-L", f"dependency={os.path.dirname(it.rlib)}"]
        else:
            at = it.folder if it.name in whole else stub_of(it, skipped)
            uses = ",".join(dict.fromkeys(["core", *it.of_kit, *[dep.name for dep in it.deps]]))
            words += ["--lib", f"{it.name}:{uses}={at}/src/lib.rt"]
    words += ["--antt-project", f"{KIT}/rattle/logic/antt-project.json", "--logic-built", f"{KIT}/logic_built"]
    words += ["--incremental", "out/over_sources" if sources else "out/incremental", "--jobs", "1", "--progress"]
    print(f"as text: {' '.join(it.name for it in sources) or 'none'}; as built: {len(built)}", flush=True)
    return words + [it for it in flags if not it.startswith("--whole=")]


def own_modules(crate):
    for at, _, names in os.walk(f"{crate.folder}/src"):
        for name in sorted(names):
            with open(f"{at}/{name}", encoding="utf-8") as it:
                if name.endswith(".rt") and name not in ("lib.rt", "main.rt") and re.search(r"\bfn ", it.read()):
                    yield os.path.relpath(f"{at}/{name}", f"{crate.folder}/src")[:-3].replace("/", "::")


def main(name, *flags):
    os.chdir(ROOT)
    crates = rt.crates_of(ROOT)
    crate = next(it for it in crates if it.name == name)
    os.makedirs(STUBS, exist_ok=True)
    built, skipped, missing = set(), set(), None
    flags = [it for it in flags if it != "--own"] + [
        word for module in own_modules(crate) if "--own" in flags for word in ("--only", module)
    ]
    while missing is None or missing - skipped:
        skipped |= missing or set()
        with open(f"{STUBS}.lock", "w", encoding="utf-8") as lock:
            fcntl.flock(lock, fcntl.LOCK_EX)
            kept = rt.Kept(crates)
            for it in crate.below():
                if all(dep.name in built for dep in it.below()) and take_kept(kept, it):
                    built.add(it.name)
            words = words_of(crate, built, flags, skipped)
        os.makedirs(f"{crate.folder}/out", exist_ok=True)
        said = []
        with subprocess.Popen(
            [rtlib.RATTLE, "check", *words], cwd=crate.folder, stdout=subprocess.PIPE, stderr=subprocess.STDOUT, text=True
        ) as ran:
            for line in ran.stdout:
                print(line, end="", flush=True)
                said.append(line)
        # A function that a macro wrote has no place of its own, and one that calls itself has another: it keeps its proof.
        missing = {
            "/".join(it)
            for it in re.findall(re.escape(STUBS) + r"/(\w+)/proofs/(\S+)/Proof\.antt: error.*(?:has no function|generates the module)", "".join(said))
        }
    return ran.returncode


if __name__ == "__main__":
    if len(sys.argv) < 2:
        sys.exit(__doc__)
    sys.exit(main(*sys.argv[1:]))
