"""The most stack that each function of the archive can take on any path, read off its instructions: what it pushes and
reserves, its return address, and the deepest of what it calls. Nothing in it calls itself or reserves by a number that is
not written in the code."""
import re
import subprocess

# Below the stack pointer a function that calls none may use this much without reserving it.
RED_ZONE = 128


class Function:
    def __init__(self):
        self.pushed, self.released, self.reserves, self.calls = 0, 0, False, set()

    def frame(self):
        """A function that reserves gives the same back before it returns; a large frame is reserved page by page."""
        if self.reserves and not self.released:
            raise ValueError("what is reserved is not given back")
        return 8 + 8 * self.pushed + self.released


def functions(x86, archive):
    words = [x86, "objdump", "-d", "-r", "--no-show-raw-insn", archive]
    found, current = {}, None
    for line in subprocess.run(words, check=True, capture_output=True, text=True).stdout.splitlines():
        head = re.match(r"[0-9a-f]+ <(\S+)>:$", line)
        if head:
            current = found[head.group(1)] = Function()
        elif current:
            read(current, line)
    return found


def read(function, line):
    if re.search(r"\tpush ", line):
        function.pushed += 1
    if re.search(r"\tsub +\$0x[0-9a-f]+,%rsp", line):
        function.reserves = True
    elif re.search(r"\t(sub|and|lea) .*,%rsp", line):
        raise ValueError("an instruction that was not foreseen: " + line.strip())
    given_back = re.search(r"\tadd +\$0x([0-9a-f]+),%rsp", line)
    if given_back:
        function.released = max(function.released, int(given_back.group(1), 16))
    called = re.search(r"R_X86_64_PLT32\s+(?:\.text\.)?(\S+?)[-+]0x", line)
    if called:
        function.calls.add(called.group(1))


def deepest(found, name, above=()):
    if name in above:
        raise ValueError(name + " calls itself")
    if name not in found:
        return 0  # memcpy and memset, which the header leaves out
    function = found[name]
    below = [deepest(found, called, above + (name,)) for called in function.calls]
    return function.frame() + max(below, default=RED_ZONE)
