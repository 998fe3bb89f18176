"""Ways to give bytes to a proved program: from a file, in pieces through a pipe, and not at all."""
import os
import subprocess
import tempfile
import time

HERE = os.path.dirname(os.path.abspath(__file__))


def program(name):
    return [os.path.join(HERE, "..", "tools", "run"), name]


def from_file(name, data):
    with tempfile.TemporaryFile() as f:
        f.write(data)
        f.seek(0)
        return subprocess.run(program(name), stdin=f, capture_output=True)


def from_pipe(name, data, size, pause):
    """The bytes arrive in pieces of one size, with a pause so that each is a short read."""
    run = subprocess.Popen(program(name), stdin=subprocess.PIPE, stdout=subprocess.PIPE, stderr=subprocess.PIPE)
    try:
        for at in range(0, len(data), size):
            run.stdin.write(data[at:at + size])
            run.stdin.flush()
            time.sleep(pause)
        run.stdin.close()
    except BrokenPipeError:
        pass  # the program has seen one byte too many and reads no further
    out, err = run.stdout.read(), run.stderr.read()
    run.wait()
    return subprocess.CompletedProcess(run.args, run.returncode, out, err)


def unreadable(name):
    """Standard input that cannot be read: a folder, and none at all."""
    folder = os.open(HERE, os.O_RDONLY)
    with_folder = subprocess.run(program(name), stdin=folder, capture_output=True)
    os.close(folder)
    closed = subprocess.run(["sh", "-c", 'exec "$0" "$@" <&-'] + program(name), capture_output=True)
    return [("a folder as standard input", with_folder), ("standard input closed", closed)]
