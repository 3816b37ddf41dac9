"""What the tools ask of the kit: the crates of crates.txt, and the words by which its prover checks one of them over the libraries below it.

A library of the repository is taken where `rt ci`, `rt lib` and `rt check` leave it: crates/NAME/out/rlib/NAME.rlib."""
import os
import shutil
import subprocess

ROOT = os.path.realpath(os.path.join(os.path.dirname(os.path.abspath(__file__)), ".."))
KIT = os.environ.get("RATTLE_HOME") or os.path.dirname(os.path.dirname(os.path.realpath(shutil.which("rt") or "rt")))
RATTLE = f"{KIT}/bin/rattle"


def listed():
    """The crates of crates.txt, each with what it depends on; and the static libraries among them."""
    crates, static = {}, set()
    for line in open(f"{ROOT}/crates.txt", encoding="utf-8"):
        words, colon, deps = line.split("#")[0].partition(":")
        name, *kind = words.split() or [""]
        if colon:
            crates[name] = deps.split()
            static |= {name} if "staticlib" in kind else set()
    return crates, static


CRATES, STATIC = listed()


def below(name):
    """The crates of the repository under a crate, each after those that it depends on."""
    found = []
    for dep in CRATES[name]:
        found += [one for one in [*below(dep), dep] if one not in found] if dep in CRATES else []
    return found


def ordered():
    """All crates, each after those that it depends on."""
    found = []
    for name in CRATES:
        found += [one for one in [*below(name), name] if one not in found]
    return found


def is_program(name):
    return os.path.exists(f"{ROOT}/crates/{name}/src/main.rt")


def words(name):
    """The words behind `rattle check` and `rattle build`, in a folder with the crate's src/, specs/ and proofs/."""
    found = ["--crate-name", name, f"src/{'main' if is_program(name) else 'lib'}.rt"]
    for dep in ["std", *CRATES[name]]:
        found += ["--extern", f"{dep}={ROOT}/crates/{dep}/out/rlib/{dep}.rlib" if dep in CRATES else f"{dep}={KIT}/rlibs/{dep}.rlib"]
    found += ["-L", f"dependency={KIT}/rlibs"]
    for dep in below(name):
        found += ["-L", f"dependency={ROOT}/crates/{dep}/out/rlib"]
    found += ["--antt-project", f"{KIT}/rattle/logic/antt-project.json", "--logic-built", f"{KIT}/logic_built", "--links", f"{name}="]
    return found + (["--crate-type", "staticlib"] if name in STATIC else [])


def make_libraries(names):
    """Has rt prove and build the libraries under some crates, and those of them that are libraries, where they are not built; the one that fails, or ''."""
    for name in ordered():
        library = not is_program(name) and name not in STATIC
        if library and any(name == one or name in below(one) for one in names):
            if subprocess.run(["rt", "lib"], cwd=f"{ROOT}/crates/{name}", stdout=subprocess.DEVNULL, stderr=subprocess.DEVNULL).returncode:
                return name
    return ""
