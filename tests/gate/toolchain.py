"""The toolchain's commands as their help documents them, and the crates of crates.txt.

No help says where in the kit its libraries, its logic, its compiler and what a program is linked
with lie. So `kit` looks whether these places and flags are there. Where one is lacking that is
said, and who asked has `rt` do the work, which takes longer."""
import functools
import os
import shutil
import subprocess
import sys
import tempfile

TOP = os.path.dirname(os.path.dirname(os.path.dirname(os.path.realpath(__file__))))
RT = shutil.which(os.environ.get("RT") or "rt")
RT = RT and os.path.abspath(RT)
PARTS = ("src", "specs", "proofs")
PLACES = {"rattle": "bin/rattle", "link": "bin/rattle-link", "rlibs": "rlibs", "logic": "rattle/logic/antt-project.json",
          "logic_built": "logic_built", "toolchain": "toolchain", "c": "c/libos_c.a", "more_c": "c/liblibc_c.a"}
FLAGS = ["--crate-name", "--extern", "-L <dependency=DIR>", "--antt-project", "--logic-built", "--incremental",
         "--statements", "--toolchain", "rattle-link --target TRIPLE --toolchain DIR -o PROGRAM FILE.o"]
# what it runs ends with the thread that started it
UNDER = ("setpriv", "--pdeathsig", "KILL") if shutil.which("setpriv") else ()


def said(*words):
    return subprocess.run(words, stdout=subprocess.PIPE, text=True, errors="replace", check=False).stdout.strip()


@functools.lru_cache(None)
def version():
    return said(RT, "version")


@functools.lru_cache(None)
def kit():
    """Each of PLACES by its name. None where this kit has another place or flag, which is said."""
    if not RT:
        sys.exit("the toolchain's rt is not on the path: README says what it is")
    top = os.path.dirname(said(RT, "doc"))
    lacks = [it for it in PLACES.values() if not os.path.exists(f"{top}/{it}")]
    help_text = "" if lacks else " ".join(said(f"{top}/bin/rattle", "build", "--help").split())
    lacks = lacks or [it for it in FLAGS if it not in help_text]
    if lacks:
        print(f"{version()} has no {', '.join(lacks)}, so rt does the work alone, which takes longer", flush=True)
        return None
    return {name: f"{top}/{it}" for name, it in PLACES.items()}


class Crate:
    """A crate of crates.txt, the crates that it names, and all below it, lowest first."""

    def __init__(self, name, deps, of_kit):
        self.name, self.deps, self.of_kit, self.folder = name, deps, ["std", *of_kit], f"{TOP}/crates/{name}"
        self.is_program = os.path.isfile(f"{self.folder}/src/main.rt")
        self.below = list(dict.fromkeys(it for dep in deps for it in [*dep.below, dep]))
        self.rlib, self.stamp = f"{self.folder}/out/statements/{name}.rlib", f"{self.folder}/out/{name}.stamp"
        places = [it for part in PARTS for it in sorted(os.walk(f"{self.folder}/{part}"))]
        self.files = [f"{at}/{it}" for at, _, names in places for it in sorted(names)]
        lines = {it: read(it).count(b"\n") for it in self.files}
        self.lines = sum(count for it, count in lines.items() if it.endswith(".rt"))
        # (more than a check from nothing was seen to take over statements, by code, proofs and libraries below)
        self.memory = (1_200_000_000 + 600_000 * self.lines + 100_000 * (sum(lines.values()) - self.lines)
                       + 30_000 * sum(it.lines for it in self.below) + 1_300_000_000 * self.is_program)

    def words(self, *flags):
        """What `rattle check` and `rattle build` take: the crate, the libraries in `out/statements`, the logic."""
        # (--extern: "a library this crate depends on, built: its name and its rlib, a directory"; -L: "a directory where
        # a built library's own libraries are found"; --logic-built: "loads the program logic's modules from DIR")
        places = kit()
        words = ["--crate-name", self.name, f"src/{'main' if self.is_program else 'lib'}.rt"]
        words += ["-L", f"dependency={places['rlibs']}"]
        for it in self.of_kit:
            words += ["--extern", f"{it}={places['rlibs']}/{it}.rlib"]
        for it in self.deps:
            words += ["--extern", f"{it.name}={it.rlib}"]
        for it in self.below:
            words += ["-L", f"dependency={os.path.dirname(it.rlib)}"]
        return [*words, "--antt-project", places["logic"], "--logic-built", places["logic_built"], *flags]

    def call(self, *words, folder=None):
        """Runs a command in the crate's folder, or another: its exit status, and all that it says."""
        ran = subprocess.run([*UNDER, *words], cwd=folder or self.folder, stdin=subprocess.DEVNULL, stdout=subprocess.PIPE,
                             stderr=subprocess.STDOUT, text=True, errors="replace", check=False)
        return ran.returncode, ran.stdout

    def checked(self, texts, *flags):
        """Exit status and output of a check of a copy with these texts in the place of the crate's own."""
        with tempfile.TemporaryDirectory(prefix="needleazure-") as copy:
            for part in PARTS:
                if os.path.isdir(f"{self.folder}/{part}"):
                    shutil.copytree(f"{self.folder}/{part}", f"{copy}/{part}")
            for path, text in texts.items():
                with open(f"{copy}/{path}", "w", encoding="utf-8") as file:
                    file.write(text)
            return self.call(kit()["rattle"], "check", *self.words(*flags), folder=copy)


def read(path):
    with open(path, "rb") as file:
        return file.read()


def crates():
    """The crates of crates.txt by name, lowest first. A library that has no line of its own is the kit's."""
    named, found = {}, {}
    for line in read(f"{TOP}/crates.txt").decode().split("\n"):
        head, colon, libraries = line.partition("#")[0].partition(":")
        if colon:
            named[head.split()[0]] = libraries.split()

    def add(name):
        if name not in found:
            ours = [add(it) for it in named[name] if it in named]
            found[name] = Crate(name, ours, [it for it in named[name] if it not in named])
        return found[name]

    for name in named:
        add(name)
    return found


class Unfit(Exception):
    """An edit does not fit the text, for this reason."""


def edited(edit, folder):
    """The texts of the crate's files that an edit changes, by their path, as `rt --help` says of must-fail edits."""
    path, old, texts = None, None, {}
    for line in read(edit).decode().split("\n"):
        word, _, rest = line.partition(": ") if not line.startswith("new:") else ("new", "", line[4:].removeprefix(" "))
        if word == "file":
            path = rest.strip()
            if not os.path.isfile(f"{folder}/{path}"):
                raise Unfit(f"there is no file {path}")
            texts.setdefault(path, read(f"{folder}/{path}").decode())
        elif word == "old":
            old = rest
        elif word == "new":
            if not path or not old or texts[path].count(old) != 1:
                raise Unfit(f"an 'old:' text is not once in {path}: {old}")
            texts[path], old = texts[path].replace(old, rest), None
    if not texts or all(text == read(f"{folder}/{path}").decode() for path, text in texts.items()):
        raise Unfit("it changes nothing")
    return texts
