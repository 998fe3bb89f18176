#!/usr/bin/env python3
"""tools/archive, tools/build and tools/run, in a copy beside a folder of their own, with an `rt` and a `uname` that only say what
they were asked. tools/archive refuses every name that could reach another folder, before anything is built or removed. tools/run
passes the arguments on as they are, runs the program itself on x86-64, and says what is missing."""
import os
import shutil
import subprocess
import sys
import tempfile

ROOT = os.path.join(os.path.dirname(os.path.abspath(__file__)), "..", "..")

REFUSED = ["", ".", "..", "../samples", "a/b", "/tmp", "-r", "a b", "a.b", "a_b", "*", "\u00e9", "a\nb", "bin"]
ARGUMENTS = ["a b", "-", "--help", "", "*"]

wrong = 0


def hold(name, found, expected):
    global wrong
    if found != expected:
        wrong += 1
        print(f"WRONG {name}: {found!r}, not {expected!r}")


def write(path, text):
    os.makedirs(os.path.dirname(path), exist_ok=True)
    with open(path, "w", encoding="utf-8") as file:
        file.write(text)
    os.chmod(path, 0o755)


def place(folder):
    """A copy of the three tools, what they could remove or run, and commands without an rt."""
    for copied in ("tools/archive", "tools/build", "tools/run", "crates/version/specs/Version.antt"):
        os.makedirs(os.path.dirname(os.path.join(folder, copied)), exist_ok=True)
        shutil.copy(os.path.join(ROOT, copied), os.path.join(folder, copied))
    for kept in ("samples/kept", "target/bin/kept"):
        write(os.path.join(folder, kept), "")
    write(os.path.join(folder, "crates/program/out/program"), "#!/bin/sh\nprintf '%s\\n' \"$@\"\n")
    write(os.path.join(folder, "crates/morgazell_c/src/lib.rt"), "")
    write(os.path.join(folder, "crates.txt"), "morgazell_c staticlib:\n")
    for command in ("sh", "env", "dirname", "readlink", "sed"):
        os.makedirs(os.path.join(folder, "commands"), exist_ok=True)
        os.symlink(shutil.which(command), os.path.join(folder, "commands", command))
    write(os.path.join(folder, "commands/python3"), f"#!/bin/sh\nexec {sys.executable} \"$@\"\n")
    write(os.path.join(folder, "kit/bin/rt"), "#!/bin/sh\necho asked: \"$@\" in \"${PWD##*/}\"\nexit 3\n")


def run(folder, tool, arguments, processor="x86_64", kit=True, **environment):
    write(os.path.join(folder, "commands", "uname"), f"#!/bin/sh\necho {processor}\n")
    path = os.path.join(folder, "commands") + (":" + os.path.join(folder, "kit", "bin") if kit else "")
    ran = subprocess.run([os.path.join(folder, "tools", tool), *arguments], env=dict(environment, PATH=path), capture_output=True, text=True)
    return ran.returncode, ran.stdout, ran.stderr


def archives(folder):
    for name in REFUSED:
        status, out, err = run(folder, "archive", [name])
        hold(f"archive {name!r}", (status, out, err.startswith("tools/archive: ")), (2, "", True))
        for kept in ("samples/kept", "target/bin/kept"):
            hold(f"archive {name!r}: {kept}", os.path.exists(os.path.join(folder, kept)), True)
    for name in ([], ["morgazell-2"]):
        hold(f"archive {name}", run(folder, "archive", name), (3, "asked: lib in morgazell_c\n", ""))


def runs(folder):
    program = os.path.join(folder, "crates", "program", "out", "program")
    given = "".join(word + "\n" for word in ARGUMENTS)
    for kit in (True, False):
        hold("run on x86-64", run(folder, "run", ["program", *ARGUMENTS], kit=kit), (0, given, ""))
        hold("run on x86-64, shown", run(folder, "run", ["program", *ARGUMENTS], kit=kit, SHOW="1"), (0, program + "\n" + given, ""))
        hold("run on x86-64, preloaded", run(folder, "run", ["program", "x"], kit=kit, SHOW="1", PRELOAD="/a b"),
             (0, f"env\nLD_PRELOAD=/a b\n{program}\nx\n", ""))
    tools = os.path.join(folder, "kit", "on", "aarch64", "toolchain")
    emulated = [tools + "/bin/qemu-x86_64", tools + "/lib/ld-linux-x86-64.so.2", "--library-path", tools + "/lib", program]
    hold("run on Arm", run(folder, "run", ["program", *ARGUMENTS], "aarch64", SHOW="1"), (0, "\n".join(emulated) + "\n" + given, ""))
    status, out, err = run(folder, "run", ["program"], "aarch64", kit=False)
    hold("run on Arm without rt", (status, out, "rt is not in the path" in err), (2, "", True))
    status, out, err = run(folder, "run", ["none"])
    hold("run of no program", (status, out, "tools/build none" in err), (2, "", True))
    status, out, err = run(folder, "run", [])
    hold("run of nothing", (status, out, err.startswith("usage: ")), (2, "", True))


def main():
    with tempfile.TemporaryDirectory() as folder:
        folder = os.path.realpath(folder)
        place(folder)
        archives(folder)
        runs(folder)
    print(f"tools: {len(REFUSED)} names refused, {wrong} wrong")
    return 1 if wrong else 0


sys.exit(main())
