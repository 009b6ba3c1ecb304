"""What the scripts in this folder share: the programs that they run, their children, and files.
tvir.py has modules as text, tvbounds.py bounds, tvreport.py reports, tvrun.py runs of tv and their
rows, tvout.py and tvpage.py forms of output.

Programs and limits come from the environment, the same for every script:

    TV         the program tv (default: crates/tv/out/tv of this tree, then `tv` on the PATH)
    TV_TRACE   the program tv_trace (default: crates/tv_trace/out/tv_trace of this tree, then the one
               beside tv, then `tv_trace` on the PATH; without one no trace is shown)
    TV_ARGS    arguments for every `tv check`, e.g. "--turns 8"
    TV_TIME    seconds after which a run of tv is ended from outside (default 10)
    TV_OPT     LLVM's opt (default: opt-19, then opt)
    TV_DIS     llvm-dis, for bitcode (default: llvm-dis-19, then llvm-dis)
    TV_REDUCE  llvm-reduce (default: llvm-reduce-19, then llvm-reduce)
    TV_LLVM    the plugin tv-llvm.so (default: llvm/build/tv-llvm.so of this tree)
"""
import argparse
import atexit
import contextlib
import dataclasses
import errno
import functools
import hashlib
import math
import os
import re
import shlex
import shutil
import signal
import stat
import subprocess
import sys
import tempfile
import threading
import traceback

try:
    import resource
except ImportError:
    resource = None

HERE = os.path.dirname(os.path.realpath(__file__))
# Statuses; tvrun.STATUSES has those of rows. docs/TOOLS.md has the table.
FAULT = 2
NOTHING = 3
WORDS = 4
UNREADABLE = 5
UNWRITTEN = 7
NOT_A_MODULE = 9
NOT_FOUND = 127
INTERRUPTED = 130
TERMINATED = 143
LONGEST = 1_000_000


class Failure(Exception):
    """A reason to end a script: its exit status and the line for standard error."""

    def __init__(self, status, message):
        super().__init__(message)
        self.status = status


class Parser(argparse.ArgumentParser):
    """A parser whose errors have the status of a wrong command line, and whose help fails where it
    can't be written, which argparse passes over."""

    def error(self, message):
        raise Failure(WORDS, message)

    def _print_message(self, message, file=None):
        (file or sys.stderr).write(message)


def start(main):
    """Runs a script's `main`, and ends with its status, never with 0 or 1 where an exception ended
    it or its output couldn't be written. No child runs on, and no temporary file stays."""
    signal.signal(signal.SIGTERM, lambda *_: sys.exit(TERMINATED))
    open_streams()
    status = guarded(lambda: tended(main))
    sys.exit(guarded(sys.stdout.flush) or status)


def tended(main):
    """Runs `main` with a watcher, and ends what it has begun."""
    try:
        watcher()
        return main()
    finally:
        stop_children()
        dismiss()


def open_streams():
    """Opens streams that the script was begun without, so that no file takes their place. What is
    written to such a standard output fails."""
    for number in (0, 1, 2):
        try:
            os.fstat(number)
        except OSError:
            os.open(os.devnull, os.O_RDWR if number == 2 else os.O_RDONLY)
    sys.stdin = sys.stdin or open(0, closefd=False)
    sys.stdout = sys.stdout or open(1, "w", closefd=False)
    sys.stderr = sys.stderr or open(2, "w", closefd=False)


def guarded(call):
    """The status that a call returns, or that its exception has."""
    try:
        return call()
    except Failure as failure:
        said(failure)
        return failure.status
    except SystemExit as ended:
        return ended.code if isinstance(ended.code, int) else FAULT if ended.code else 0
    except KeyboardInterrupt:
        return INTERRUPTED
    except OSError as error:
        return unwritten(error)
    except Exception as error:
        said(f"this is a fault of the script: {type(error).__name__}: {error}\n"
             + traceback.format_exc().rstrip())
        return FAULT


def unwritten(error):
    """The status of a fault of the system: UNWRITTEN where standard output or the temporary folder
    takes nothing. Whoever closes a pipe wants no message."""
    if error.errno in (errno.EPIPE, errno.ENOSPC, errno.EDQUOT, errno.EFBIG, errno.EIO, errno.EBADF):
        if error.errno != errno.EPIPE:
            said(f"cannot write: {error.strerror}")
        os.dup2(os.open(os.devnull, os.O_WRONLY), 1)
        return UNWRITTEN
    said(error)
    return FAULT


def said(message):
    """Prints a line on standard error, where that is possible."""
    with contextlib.suppress(OSError):
        print(f"{os.path.basename(sys.argv[0])}: {message}", file=sys.stderr, flush=True)


# The programs.

def program(variable, *names):
    """The path of a program: what `variable` says, else the first of `names` on the PATH."""
    chosen = os.environ.get(variable)
    if chosen:
        if shutil.which(chosen):
            return chosen
        raise Failure(NOT_FOUND, f"{variable}={chosen}: no such program")
    for found in filter(None, map(shutil.which, names)):
        if os.path.realpath(found) != os.path.realpath(sys.argv[0]):
            return found
    raise Failure(NOT_FOUND, f"{' or '.join(names)} was not found; set {variable} to its path")


@functools.lru_cache(maxsize=None)
def tv_program():
    built = os.path.join(os.path.dirname(HERE), "crates", "tv", "out", "tv")
    return program("TV", built, "tv")


def trace_name(name):
    """The name of the tv_trace that belongs to a tv of this name: tv_trace-quick to tv-quick."""
    return "tv_trace" + (name[2:] if name.startswith("tv") else "")


@functools.lru_cache(maxsize=None)
def trace_program():
    """The program tv_trace, None where there is none and TV_TRACE names none."""
    built = os.path.join(os.path.dirname(HERE), "crates", "tv_trace", "out", "tv_trace")
    tv = shutil.which(tv_program()) or ""
    beside = os.path.join(os.path.dirname(tv), trace_name(os.path.basename(tv)))
    if os.environ.get("TV_TRACE") or any(map(shutil.which, (built, beside, "tv_trace"))):
        return program("TV_TRACE", built, beside, "tv_trace")
    return None


@functools.lru_cache(maxsize=None)
def opt_program():
    return program("TV_OPT", "opt-19", "opt")


@functools.lru_cache(maxsize=None)
def dis_program():
    return program("TV_DIS", "llvm-dis-19", "llvm-dis")


@functools.lru_cache(maxsize=None)
def plugin():
    """The path of the plugin for opt, whose pass tv-lower writes functions out."""
    built = os.path.join(os.path.dirname(HERE), "llvm", "build", "tv-llvm.so")
    chosen = os.environ.get("TV_LLVM", built)
    if os.path.isfile(chosen):
        return os.path.abspath(chosen)
    raise Failure(NOT_FOUND, f"{chosen}: no such plugin; build it (cmake -S llvm -B llvm/build && "
                             "make -C llvm/build), or set TV_LLVM to its path")


def tv_args():
    value = os.environ.get("TV_ARGS", "")
    try:
        return shlex.split(value)
    except ValueError as error:
        raise Failure(WORDS, f"TV_ARGS={value}: {error}") from None


def seconds_of(text):
    """A number of seconds that an option or a variable gives."""
    try:
        value = float(text)
    except ValueError:
        value = math.nan
    if not 0 < value <= LONGEST:
        raise argparse.ArgumentTypeError(
            f"takes a number of seconds above 0 and up to {LONGEST}, not {text!r}")
    return value


def time_limit():
    try:
        return seconds_of(os.environ.get("TV_TIME", "10"))
    except argparse.ArgumentTypeError as error:
        raise Failure(WORDS, f"TV_TIME {error}") from None


def digest(*parts):
    """A name for these texts: 32 hexadecimal digits of their SHA-256."""
    total = hashlib.sha256()
    for part in parts:
        data = part if isinstance(part, bytes) else str(part).encode()
        total.update(b"%d:" % len(data) + data)
    return total.hexdigest()[:32]


def file_digest(path):
    with open(shutil.which(path) or path, "rb") as file:
        return digest(file.read())


# Children, so that none outlives the script.

_children = set()
_lock = threading.Lock()
_stopped = threading.Event()
SPARE = 2


@dataclasses.dataclass
class Done:
    """What a child answered; `status` is None where it was ended at its time limit."""
    status: int
    output: bytes
    errors: bytes


def run(command, data=b"", seconds=None):
    """Runs a child to its end, or ends it after `seconds`, and its own children with it."""
    tag = {watcher().tag: "1"}
    try:
        with _lock:
            if _stopped.is_set():
                raise Failure(INTERRUPTED, "stopped")
            child = subprocess.Popen(command, stdin=subprocess.PIPE if data else subprocess.DEVNULL,
                                     stdout=subprocess.PIPE, stderr=subprocess.PIPE,
                                     env={**os.environ, **tag}, start_new_session=True)
            _children.add(child)
    except OSError as error:
        raise Failure(NOT_FOUND, f"{command[0]}: {error.strerror}") from None
    try:
        limit(child, seconds)
        output, errors = child.communicate(data or None, timeout=seconds)
        if _stopped.is_set():
            raise Failure(INTERRUPTED, "stopped")
        return Done(child.returncode, output, errors)
    except subprocess.TimeoutExpired:
        end(child)
        output, errors = child.communicate()
        return Done(None, output, errors)
    finally:
        if child.poll() is None:
            end(child)
            child.wait()
        with _lock:
            _children.remove(child)


def limit(child, seconds):
    """Bounds a child's processor time, for the case that nobody is left to end it."""
    if seconds is None or not hasattr(resource, "prlimit"):
        return
    _, most = resource.getrlimit(resource.RLIMIT_CPU)
    wanted = math.ceil(seconds) + SPARE
    if most == resource.RLIM_INFINITY or wanted < most:
        with contextlib.suppress(OSError):
            resource.prlimit(child.pid, resource.RLIMIT_CPU, (wanted, wanted))


def stop_children():
    """Ends all children, and begins no more."""
    with _lock:
        _stopped.set()
        for child in _children:
            end(child)


def end(child):
    if child.poll() is None:
        with contextlib.suppress(ProcessLookupError):
            os.killpg(child.pid, signal.SIGKILL)


# A process that waits for the script's end. Where the script was killed it ends the children, which
# it knows by a variable in their environment: a child has that from its first step on, and hands it
# to its own children. It looks more than once, for one that was just being started.
WATCH = """
trap '' HUP INT TERM
read -r word
if [ -z "$word" ]; then
  for pause in 0 0.2 1; do
    sleep $pause
    for each in $(grep -lsF "$2=1" /proc/[0-9]*/environ); do
      each=${each#/proc/}
      kill -9 "${each%/environ}"
    done
  done
fi
rm -rf "$1"
"""
_watchers = []
_begun = threading.Lock()


class Watcher:
    """The process, the folder of the script's temporary files, which it removes, and the variable
    by which it knows children."""

    def __init__(self):
        self.folder = tempfile.mkdtemp(prefix="tv-")
        self.tag = "TV_RUN_" + os.path.basename(self.folder)[len("tv-"):]
        tempfile.tempdir = self.folder
        self.child = subprocess.Popen(["/bin/sh", "-c", WATCH, "sh", self.folder, self.tag],
                                      stdin=subprocess.PIPE, stdout=subprocess.DEVNULL,
                                      stderr=subprocess.DEVNULL, start_new_session=True,
                                      env={"PATH": os.defpath})

    def end(self):
        """Lets it remove the folder, and waits for that."""
        tempfile.tempdir = None
        with contextlib.suppress(OSError):
            self.child.communicate(b"ended\n")


def watcher():
    """The script's watcher, begun when it is first needed."""
    with _begun:
        if not _watchers:
            _watchers.append(Watcher())
            atexit.register(dismiss)
        return _watchers[0]


def dismiss():
    """Ends the watcher, after the last child."""
    with _begun:
        while _watchers:
            _watchers.pop().end()


# What opt says where it fails. LLVM numbers what it was doing; the last is the innermost.

PASS = re.compile(rb"^\d+\.\s+(?!Program arguments)(\S.*?)\s*$", re.M)


def is_crash(done):
    """Whether a run of opt ended by a signal, or with LLVM's dump of what it was doing."""
    return done.status is not None and (done.status < 0 or bool(PASS.search(done.errors)))


def why_failed(done, seconds):
    """Why a run of opt failed, in words: the pass and the function of a crash, else the last line of
    what it said."""
    if done.status is None:
        return f"over {seconds} s"
    ended = f"signal {-done.status}" if done.status < 0 else f"status {done.status}"
    passes = PASS.findall(done.errors)
    if passes:
        return f"{ended}: {passes[-1].decode('utf-8', 'replace')}"
    lines = done.errors.decode("utf-8", "replace").strip().splitlines()
    return lines[-1] if lines else ended


# Files.

def read_bytes(path):
    try:
        with open(path, "rb") as file:
            return file.read()
    except OSError as error:
        raise Failure(UNREADABLE, f"cannot read {path}: {error.strerror}") from None


def read_text(path):
    return read_bytes(path).decode("utf-8", "surrogateescape")


STREAM = re.compile(r"/(?:dev|proc/self)/fd/(\d+)$|/dev/std(out|err)$")
MASK = os.umask(0)
os.umask(MASK)


def write_out(path, text):
    """Writes an output where it is: a plain file is replaced in one step, so that whoever reads it
    sees the old text or the whole new one, and keeps its mode; through a link; a device, a pipe
    or a stream of this process is written to."""
    data = text if isinstance(text, bytes) else text.encode("utf-8", "surrogateescape")
    try:
        number = stream_of(path)
        if number is not None:
            sys.stdout.flush()
            write_to(os.dup(number), data)
            return
        there = os.path.realpath(path)
        found = status_of_file(there)
        if found and not stat.S_ISREG(found.st_mode):
            write_to(os.open(there, os.O_WRONLY), data)
        else:
            replace(there, data, found)
    except OSError as error:
        raise Failure(UNWRITTEN, f"cannot write {path}: {error.strerror}") from None


def stream_of(path):
    """The number of the stream that a path like /dev/stdout names, or None."""
    found = STREAM.match(os.path.abspath(path))
    return found and int(found.group(1) or {"out": 1, "err": 2}[found.group(2)])


def write_to(number, data):
    with open(number, "wb") as file:
        file.write(data)


def status_of_file(path):
    """What the system says of a file; None where there is none."""
    try:
        return os.stat(path)
    except (FileNotFoundError, NotADirectoryError):
        return None


def replace(path, data, found):
    """Puts a new file in the place of one, whose status is `found`, or of none."""
    folder = os.path.dirname(path)
    os.makedirs(folder, exist_ok=True)
    handle, beside = tempfile.mkstemp(dir=folder, prefix=".part-")
    try:
        write_to(handle, data)
        if found:
            with contextlib.suppress(PermissionError):
                os.chown(beside, found.st_uid, found.st_gid)
        os.chmod(beside, stat.S_IMODE(found.st_mode) if found else 0o666 & ~MASK)
        os.replace(beside, path)
    except BaseException:
        os.unlink(beside)
        raise


def keep_apart(outputs, inputs):
    """Refuses an output that is an input, or another output, under whatever name."""
    read = {identity(path): path for path in inputs}
    written = set()
    for path in filter(None, outputs):
        name = identity(path)
        if name is None:
            continue
        if name in read or name in written:
            what = f"also read as {read[name]}" if name in read else "written twice"
            raise Failure(WORDS, f"{path} is {what}: give the output another name")
        written.add(name)


def identity(path):
    """Device and number of a plain file, the whole path of one that isn't there, None for others."""
    if path == "-" or stream_of(path) is not None:
        return None
    found = status_of_file(os.path.realpath(path))
    if not found:
        return os.path.realpath(path)
    return (found.st_dev, found.st_ino) if stat.S_ISREG(found.st_mode) else None
