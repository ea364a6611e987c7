"""Films and their JSON, put into a folder. Each is written beside its place, flushed, and gets its name at the end, the JSON
before the film: no film is ever without it, none is torn, and none takes another file's place unasked."""
import errno
import fcntl
import glob
import os
import signal
import stat

from said import CANNOT_CREATE, IO_FAULT, Ended, say, shown

SIGNALS = {signal.SIGHUP, signal.SIGINT, signal.SIGTERM, signal.SIGQUIT}
FULL = (errno.ENOSPC, errno.EDQUOT)
parts = []  # names of new files that have no place yet
unflushed = set()  # folders that could not be, and that was told


def stop(number, _):
    """Nothing is left behind."""
    for part in parts:
        try:
            os.unlink(part)
        except OSError:
            pass
    signal.signal(number, signal.SIG_DFL)
    os.kill(os.getpid(), number)


def watch():
    for number in SIGNALS:
        if signal.getsignal(number) != signal.SIG_IGN:
            signal.signal(number, stop)


def make_folder(folder):
    """Makes the folder where it is not there, and clears what killed runs left and nobody holds."""
    try:
        os.makedirs(folder, exist_ok=True)
    except OSError as fault:
        raise Ended("the folder cannot be used: %s" % fault.strerror, "Name another behind --into.",
                    CANNOT_CREATE, True) from None
    for part in glob.glob(os.path.join(glob.escape(folder), ".import-*.part")):
        try:
            clear(part)
        except OSError:  # held, another's, or gone meanwhile
            pass


def clear(part):
    """Removes a new file of a run that is no more."""
    held = os.open(part, os.O_RDONLY | os.O_NOFOLLOW | os.O_NONBLOCK)
    try:
        fcntl.flock(held, fcntl.LOCK_EX | fcntl.LOCK_NB)
        os.unlink(part)
    finally:
        os.close(held)


def standing(path, data):
    """What stands in a place: nothing, the same, or something else. A link is something else, wherever it leads."""
    try:
        there = os.lstat(path)
    except FileNotFoundError:
        return "nothing"
    if stat.S_ISDIR(there.st_mode):
        raise Ended("%s is a folder" % shown(path), "Move it, or import into another folder.", CANNOT_CREATE)
    if not stat.S_ISREG(there.st_mode) or there.st_size != len(data):
        return "other"
    try:
        with open(os.open(path, os.O_RDONLY | os.O_NOFOLLOW), "rb") as file:
            return "same" if file.read() == data else "other"
    except OSError:
        return "other"


def open_part(folder):
    """A new file of this process, held so that nobody clears it."""
    for attempt in range(1000):
        part = os.path.join(folder, ".import-%d-%d.part" % (os.getpid(), attempt))
        parts.append(part)
        try:
            to = os.open(part, os.O_WRONLY | os.O_CREAT | os.O_EXCL | os.O_NOFOLLOW, 0o666)
        except FileExistsError:
            parts.remove(part)
            continue
        fcntl.flock(to, fcntl.LOCK_EX)
        try:
            if os.stat(part).st_ino == os.fstat(to).st_ino:
                return part, to
        except FileNotFoundError:
            pass
        parts.remove(part)
        os.close(to)
    raise OSError(errno.EEXIST, "a thousand new files are there")


def lay(folder, data):
    """The bytes in a new file, flushed. It stays open, and so held, until it has its place."""
    part, to = open_part(folder)
    rest = memoryview(data)
    try:
        while rest:
            rest = rest[os.write(to, rest):]
        os.fsync(to)
    except OSError:
        os.close(to)
        raise
    return part, to


def place(part, path, over):
    """Gives a new file its name. Unless it may replace another, one that came there meanwhile is left alone."""
    if over:
        os.rename(part, path)
    else:
        try:
            os.link(part, path)
            os.unlink(part)
        except OSError as fault:
            # a stick's file system may have no second names
            if fault.errno not in (errno.EPERM, errno.ENOTSUP, errno.ENOSYS, errno.EMLINK) or os.path.lexists(path):
                raise
            os.rename(part, path)
    parts.remove(part)


def flush(folder):
    """A folder that may not be read has to do without, which is told once, and so has a file system that flushes none."""
    try:
        of = os.open(folder, os.O_RDONLY | os.O_DIRECTORY)
    except PermissionError as fault:
        if folder not in unflushed:
            say("the films are whole, and a power cut may undo them: cannot flush the folder %s: %s"
                % (shown(folder), fault.strerror))
        unflushed.add(folder)
        return
    try:
        os.fsync(of)
    except OSError as fault:
        if fault.errno != errno.EINVAL:
            raise
    finally:
        os.close(of)


def lay_and_place(folder, todo):
    """All of `todo` lies flushed before the first gets its name. Signals wait while names are given."""
    laid, placed = [], []
    try:
        for path, data, over in todo:
            laid.append(lay(folder, data) + (path, over))
        before = signal.pthread_sigmask(signal.SIG_BLOCK, SIGNALS)
        try:
            for part, _, path, over in laid:
                place(part, path, over)
                placed.append((path, over))
        except OSError:
            for path, over in placed:
                if not over:
                    os.unlink(path)
            raise
        finally:
            signal.pthread_sigmask(signal.SIG_SETMASK, before)
        flush(folder)
    finally:
        for part, to, _, _ in laid:
            os.close(to)
        while parts:
            if os.path.lexists(parts[-1]):
                os.unlink(parts[-1])
            parts.pop()


def put(folder, named, force):
    """Puts files away, by name and bytes in this order. Returns False where all of them are there already."""
    todo = []
    for name, data in named:
        path = os.path.join(folder, name)
        there = standing(path, data)
        if there == "other" and not force:
            raise Ended("%s is there already, and is another" % shown(path),
                        "Import into another folder, or, where this is no scan, say --force to have it replaced.", CANNOT_CREATE)
        if there != "same":
            todo.append((path, data, there == "other"))
    try:
        lay_and_place(folder, todo)
    except FileExistsError as fault:
        raise Ended("%s came to be there meanwhile" % shown(str(fault.filename2 or fault.filename)),
                    "Run the same words again.", CANNOT_CREATE) from None
    except OSError as fault:
        full = fault.errno in FULL
        status = CANNOT_CREATE if fault.errno in (errno.EACCES, errno.EPERM, errno.EROFS, errno.ENOENT) else IO_FAULT
        raise Ended("its film cannot be written into %s: %s" % (shown(folder), fault.strerror),
                    "Make room there and run the same words again: what is there already is kept." if full else
                    "See to the folder and run the same words again.", status, full) from None
    return bool(todo)
