"""What the scripts of this folder need of the Rattle kit beside `rt`: its checker over crates that `rt ci` has proved, and what crates.txt says.

A command of `rt` leaves libraries that a later command takes only where the session's own checks built them. So a script lays the crates that it needs
out in a folder outside the checkout and runs `rt ci` there, which takes what an earlier run on this machine has passed and proves the rest; what it
leaves in crates/NAME/out/rlib there is what `rattle` is given below.
"""
import os
import pathlib
import re
import shutil
import subprocess
import tempfile

PARTS = ("src", "specs", "proofs")


def home():
    """The kit's folder."""
    return pathlib.Path(subprocess.run(["rt", "doc"], capture_output=True, text=True, check=True).stdout.strip()).parent


def listed(text):
    """The crates of a crates.txt, in its order: for each whether it is a static library, and what it stands on, crates of the list and libraries of the kit."""
    crates = {}
    for line in text.splitlines():
        head, _, needs = line.partition("#")[0].partition(":")
        if words := head.split():
            crates[words[0]] = "staticlib" in words[1:], needs.split()
    return crates


def reached(crates, *names):
    """These crates, and the listed crates that they stand on, in the list's order."""
    found, todo = set(), list(names)
    while todo:
        crate = todo.pop()
        if crate in crates and crate not in found:
            found.add(crate)
            todo += crates[crate][1]
    return [crate for crate in crates if crate in found]


def laid_out(names, folder):
    """Copies these crates and those below them into a folder, but for their must-fail edits."""
    text = pathlib.Path("crates.txt").read_text()
    crates = listed(text)
    wanted = reached(crates, *names)
    for crate in wanted:
        shutil.copytree(f"crates/{crate}", f"{folder}/crates/{crate}", symlinks=True, ignore=lambda at, _: ("out", "must-fail") if at == f"crates/{crate}" else ())
    lines = [line for line in text.splitlines() if line.partition("#")[0].partition(":")[0].split()[:1] in [[crate] for crate in wanted]]
    pathlib.Path(folder, "crates.txt").write_text("\n".join(lines) + "\n")
    if os.path.exists("HANDLES"):
        shutil.copyfile("HANDLES", f"{folder}/HANDLES")


def words(folder, name, jobs=1, toolchain=None):
    """What `rattle check` and `rattle build` are told of a crate of such a folder, in which the crates below it are proved."""
    crates, kit, out = listed(pathlib.Path(folder, "crates.txt").read_text()), home(), "{}/crates/{}/out/rlib"
    is_static, needs = crates[name]
    found = ["--crate-name", name, "src/main.rt" if os.path.exists(f"{folder}/crates/{name}/src/main.rt") else "src/lib.rt"]
    for library in ["std", *(need for need in needs if need not in crates)]:
        found += ["--extern", f"{library}={kit}/rlibs/{library}.rlib"]
    found += ["-L", f"dependency={kit}/rlibs"]
    for need in needs:
        found += ["--extern", f"{need}={out.format(folder, need)}/{need}.rlib"] if need in crates else []
    for below in reached(crates, name):
        found += ["-L", f"dependency={out.format(folder, below)}"] if below != name else []
    found += ["--antt-project", f"{kit}/rattle/logic/antt-project.json", "--logic-built", f"{kit}/logic_built", "--jobs", str(jobs)]
    # The header asks no more of a processor than any x86-64 has.
    found += ["--crate-type", "staticlib", "--cpu", "x86-64"] if is_static else []
    return found + (["--toolchain", str(toolchain)] if toolchain else [])


def rattle(*arguments, **how):
    """Runs the kit's `rattle`, and gives what it ended with and printed."""
    how = {"stdin": subprocess.DEVNULL, "stdout": subprocess.PIPE, "stderr": subprocess.STDOUT, "text": True, "errors": "replace", **how}
    return subprocess.run([home() / "bin" / "rattle", *arguments], **how)


def lanes():
    """How many checks go side by side: one a processor, and as many as memory holds, some 3 GB for each."""
    free = re.search(r"^MemAvailable: +(\d+) kB", pathlib.Path("/proc/meminfo").read_text(), re.M)
    return max(1, min(len(os.sched_getaffinity(0)), int(free.group(1)) // 3_000_000 if free else 1))


def scratch():
    """A folder outside the checkout that is removed at the end of a `with`."""
    return tempfile.TemporaryDirectory(prefix="rudderfig-")


def edited(changes, read):
    """The texts that changes make, by file: each change a file, a text that stands there once, and the text that replaces it. `read` gives a file's text."""
    texts = {}
    for file, old, new in changes:
        text = texts.get(file, read(file))
        if old is None or text is None or text.count(old) != 1:
            raise ValueError(f"{file} has {old!r} not once")
        texts[file] = text.replace(old, new)
    return texts
