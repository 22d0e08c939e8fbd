"""Files that are made in a folder of their own beside their place, proved there, and only then given their names. What the tools of this folder
share; not a tool itself."""
import errno
import fcntl
import glob
import os
import shutil
import subprocess
import tempfile
from areas import Store
from graph_lines import Fault, Missing
from progress import progress

TOP = os.path.dirname(os.path.dirname(os.path.abspath(__file__)))
# What a file system answers that has no links.
LINKLESS = (errno.EPERM, errno.EOPNOTSUPP, errno.ENOSYS)


def sync(path):
    """Syncs a file, or a folder's names."""
    descriptor = os.open(path, os.O_RDONLY)
    os.fsync(descriptor)
    os.close(descriptor)


class Beside:
    """A new folder in a folder, locked while this stands, for files that have not their names yet. Those that earlier runs left behind for the same
    name are taken away."""

    def __init__(self, folder, name):
        self.folder = folder or "."
        for left in glob.glob(os.path.join(glob.escape(self.folder), glob.escape(f".{name}.new-") + "*")):
            self.take_away(left)
        self.path = tempfile.mkdtemp(prefix=f".{name}.new-", dir=self.folder)
        self.lock = self.locked(self.path)
        if self.lock is None:
            raise Fault(self.path, "was taken away by another run: try again")

    @staticmethod
    def locked(path):
        """The folder, locked; None where another run has it, or it is there no more."""
        try:
            descriptor = os.open(path, os.O_RDONLY | os.O_DIRECTORY | os.O_NOFOLLOW)
        except OSError:
            return None
        try:
            fcntl.flock(descriptor, fcntl.LOCK_EX | fcntl.LOCK_NB)
        except BlockingIOError:
            os.close(descriptor)
            return None
        return descriptor

    def take_away(self, path):
        lock = self.locked(path)
        if lock is not None:
            shutil.rmtree(path, ignore_errors=True)
            os.close(lock)

    def __enter__(self):
        return self

    def __exit__(self, *_):
        shutil.rmtree(self.path, ignore_errors=True)
        os.close(self.lock)


def copy(source, path):
    """A synced copy of an open file, for its owner alone."""
    descriptor = os.open(path, os.O_WRONLY | os.O_CREAT | os.O_EXCL, 0o600)
    with open(descriptor, "wb") as target:
        source.seek(0)
        shutil.copyfileobj(source, target, 1 << 20)
        target.flush()
        os.fsync(target.fileno())


def give_name(path, final):
    """Gives a file that is synced its name, where none is there, and syncs the folder."""
    try:
        os.link(path, final)
    except FileExistsError:
        raise Fault(final, "is there already") from None
    except OSError as error:
        if error.errno not in LINKLESS:
            raise
        if os.path.lexists(final):
            raise Fault(final, "is there already") from None
        os.rename(path, final)
    sync(os.path.dirname(final) or ".")


def name_store(made, name):
    """Gives both files of a made store their names. The chosen one is first, since it alone is the whole store."""
    chosen = Store(made).chosen.path
    for path in sorted((f"{made}.{ending}" for ending in "ab"), key=lambda path: path != chosen):
        sync(path)
        give_name(path, name + path[-2:])


def installed():
    """The executable that reads a store."""
    program = os.environ.get("PGGUARD") or os.path.join(TOP, "pgguard")
    if shutil.which(program) is None:
        raise Missing(program)
    return program


def proved(program, made, called):
    """What `recover` prints of a store, whose graph conforms to its schema; a fault has the name that a user knows."""
    progress.reading(f"recover and validate of {called}")
    dump = subprocess.run([program, "recover", made], stdout=subprocess.PIPE, stdin=subprocess.DEVNULL)
    if dump.returncode != 0:
        raise Fault(called, f"recover ends with {dump.returncode}: {dump.stdout[:200].decode('utf-8', 'replace').strip()}")
    judged = subprocess.run([program, "validate"], input=dump.stdout, stdout=subprocess.PIPE)
    if judged.returncode != 0 or judged.stdout:
        raise Fault(called, f"validate ends with {judged.returncode}: {judged.stdout[:200].decode('utf-8', 'replace').strip()}")
    return dump.stdout
