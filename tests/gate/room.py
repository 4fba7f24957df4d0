"""A folder in which a crate is checked with other texts, over links of what its checks kept, and a process with its seconds."""
import contextlib
import os
import shutil
import signal
import subprocess
import tempfile

# What a check reads of a crate.
PARTS = ("src", "specs", "proofs")
# The folders that are in use.
ROOMS = set()


def end_at_once(number, _):
    """Removes the folders, and ends. What checks there ends with this process."""
    for it in [*ROOMS]:
        shutil.rmtree(it, ignore_errors=True)
    os._exit(128 + number)


def end_well_on_signals():
    """Leaves no folder behind where a signal ends the process."""
    for it in (signal.SIGHUP, signal.SIGINT, signal.SIGTERM):
        signal.signal(it, end_at_once)


def run(words, folder):
    """Runs a command, and returns its exit status, what it said, and its seconds of processor time."""
    with tempfile.TemporaryFile("w+", errors="replace") as said:
        ran = subprocess.Popen(words, cwd=folder, stdin=subprocess.DEVNULL, stdout=said, stderr=subprocess.STDOUT)
        _, status, used = os.wait4(ran.pid, 0)
        ran.returncode = -os.WTERMSIG(status) if os.WIFSIGNALED(status) else os.WEXITSTATUS(status)
        said.seek(0)
        return ran.returncode, said.read(), used.ru_utime + used.ru_stime


def link_or_copy(one, other):
    """Gives a proved module a second name, and copies any other file: a check replaces the one, and may write into the other."""
    try:
        if one.endswith(".oantt"):
            return os.link(one, other)
    except OSError:
        pass
    return shutil.copy2(one, other)


@contextlib.contextmanager
def copy_of(crate, texts):
    """A copy of a crate's texts, with these in place of its own, and in its folder kept what the crate's checks kept."""
    room = tempfile.mkdtemp(prefix="pbcnf-edit-")
    ROOMS.add(room)
    try:
        for part in PARTS:
            if os.path.isdir(f"{crate.folder}/{part}"):
                shutil.copytree(f"{crate.folder}/{part}", f"{room}/{part}")
        for path, text in texts.items():
            with open(f"{room}/{path}", "w", encoding="utf-8") as file:
                file.write(text)
        shutil.copytree(f"{crate.folder}/out/incremental", f"{room}/kept", symlinks=True, copy_function=link_or_copy)
        yield room
    finally:
        ROOMS.discard(room)
        shutil.rmtree(room, ignore_errors=True)
