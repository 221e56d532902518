"""What the scripts that build logtm know of the repository, of the kit, and of the programs in .build."""
import contextlib
import fcntl
import os
import shutil
import subprocess
import sys

TOP = os.path.dirname(os.path.dirname(os.path.realpath(__file__)))
PROGRAM = "logtm"
TARGET = "x86_64-unknown-linux-gnu"
# What is told by a status of this repository's programs and scripts: a file can't be read or written, and memory has run out.
CANNOT, NO_MEMORY = 3, 6


def kit():
    """The folder of the kit. There has to be one."""
    found = shutil.which("rt")
    if not found:
        print("logtm: there is no command rt, so nothing can be built: install the Rattle kit that README.md names", file=sys.stderr)
        sys.exit(CANNOT)
    return os.path.dirname(os.path.dirname(os.path.realpath(found)))


def uses_by_crate():
    """For each crate of the repository the libraries that it uses."""
    found = {}
    with open(f"{TOP}/crates.txt", encoding="utf-8") as lines:
        for line in lines:
            name, colon, uses = line.partition("#")[0].partition(":")
            if colon:
                found[name.split()[0]] = uses.split()
    return found


def digest(*words):
    """The digest of the program's sources, as scripts/sources prints it."""
    return subprocess.run([f"{TOP}/scripts/sources", *words], check=True, capture_output=True, text=True).stdout.strip()


def program_words(kit, *objects):
    """The words that link a program of these object files, but for its path."""
    words = [f"{kit}/bin/rattle-link", "--target", TARGET, "--toolchain", f"{kit}/toolchain", "-o"]
    return lambda path: [*words, path, *objects, f"{kit}/c/libos_c.a", f"{kit}/c/liblibc_c.a"]


class Place:
    """Where a program stands in .build, beside the digest of its sources and what --version says of it. While one makes it, others wait."""

    def __init__(self, name, waits=True):
        self.folder, self.how = f"{TOP}/.build/{name}", fcntl.LOCK_EX if waits else fcntl.LOCK_EX | fcntl.LOCK_NB
        os.makedirs(self.folder, exist_ok=True)

    def __enter__(self):
        self.lock = open(f"{self.folder}/lock", "w", encoding="utf-8")
        fcntl.flock(self.lock, self.how)
        return self

    def __exit__(self, *_):
        self.lock.close()

    def read(self, name):
        try:
            with open(f"{self.folder}/{name}", encoding="utf-8") as it:
                return it.read().rstrip("\n")
        except OSError:
            return None

    def write(self, name, text):
        with open(f"{self.folder}/{name}.new", "w", encoding="utf-8") as it:
            it.write(f"{text}\n")
        os.replace(f"{self.folder}/{name}.new", f"{self.folder}/{name}")

    def holds(self, sources, **others):
        """Whether the program of these sources stands here, with these texts beside it."""
        return os.path.exists(f"{self.folder}/{PROGRAM}") and self.read("sources") == sources and all(self.read(it) == text for it, text in others.items())

    def put(self, program, sources, **others):
        """Puts a program here, of which whoever runs the one that stood here is not aware."""
        with contextlib.suppress(FileNotFoundError):
            os.remove(f"{self.folder}/sources")
        os.replace(program, f"{self.folder}/{PROGRAM}")
        for name, text in others.items():
            self.write(name, text)
        self.write("sources", sources)
        # ./logtm chooses anew.
        with contextlib.suppress(FileNotFoundError):
            os.remove(f"{TOP}/.build/chosen")
