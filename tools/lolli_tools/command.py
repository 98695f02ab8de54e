"""The words of a tool, the program that it calls, and how a tool ends."""
import argparse
import os
import re
import signal
import stat
import subprocess
import sys
import tempfile
import threading

TOOLS = os.path.dirname(os.path.dirname(os.path.abspath(__file__)))
LARGEST_TEXT = 16_777_216
DEEPEST = 60_000
STACK_BYTES = 512 * 1024 * 1024

DONE, FOUND, UNDECIDED = 0, 1, 2
USAGE, ABSENT, UNREADABLE, UNWRITABLE, FAULTY, TOO_LONG, DENIED, NO_MEMORY = range(3, 11)
NO_PROGRAM, STRANGE_PROGRAM, TOO_DEEP, TOO_SLOW, UNFIT, OWN_FAULT, INTERRUPTED = 12, 13, 14, 15, 16, 17, 130
LAST_OF_RUN = r"answers \d+, bound reached \d+, inferences \d+|stopped after \d+"
LAST_OF_CHECK = r"yes, nodes \d+"


class Ended(Exception):
    """A tool ends with this status and this sentence."""

    def __init__(self, status, sentence):
        super().__init__(sentence)
        self.status = status
        self.sentence = sentence


class Words(argparse.ArgumentParser):
    """Words of a tool. Where they fit no form there is one sentence."""

    def __init__(self, description):
        super().__init__(description=description, formatter_class=argparse.RawDescriptionHelpFormatter, allow_abbrev=False)

    def error(self, message):
        raise Ended(USAGE, message)

    def add_program(self):
        self.add_argument("--lolli", metavar="PATH", help="the program; else the variable LOLLI, else ../lolli beside the tools")


def whole(least, most):
    """A reader of whole numbers from `least` to `most`, for argparse."""

    def number(word):
        if not (word.isascii() and word.isdigit() and len(word) <= 9 and least <= int(word) <= most):
            raise argparse.ArgumentTypeError(f"'{word}' is no whole number from {least} to {most}")
        return int(word)

    return number


class Reply:
    """What the program wrote, as text with a character for each byte, and its status."""

    def __init__(self, status, text):
        self.status = status
        self.text = text
        self.last = text.rstrip("\n").rpartition("\n")[2]


class Program:
    """The program, called as a process of its own for each question."""

    # The processes that are running, for an interrupt to end.
    running = set()

    def __init__(self, path):
        self.path = path or os.environ.get("LOLLI") or os.path.join(os.path.dirname(TOOLS), "lolli")

    def ask(self, *words, seconds=None):
        """The reply to these words, or nothing where it takes longer."""
        try:
            process = subprocess.Popen(
                [os.path.abspath(self.path), *words], stdin=subprocess.DEVNULL, stdout=subprocess.PIPE, start_new_session=True
            )
        except (OSError, ValueError) as error:
            raise Ended(NO_PROGRAM, f"the program {self.path} can't be started: {told(error)}") from None
        self.running.add(process)
        try:
            output, _ = process.communicate(timeout=seconds)
        except subprocess.TimeoutExpired:
            return None
        finally:
            self.running.discard(process)
            if process.returncode is None:
                end_group(process)
        if process.returncode in (125, 126, 127):
            raise Ended(NO_PROGRAM, f"the program {self.path} can't be started: status {process.returncode}")
        if process.returncode < 0:
            raise Ended(STRANGE_PROGRAM, f"the program {self.path} was ended by signal {-process.returncode}")
        return Reply(process.returncode, output.decode("latin-1"))

    def must(self, *words, statuses=(DONE,), last=".*", seconds=None):
        """The reply, where its status is one of these and its last line of this form. What the program says otherwise ends the tool, with its status."""
        reply = self.ask(*words, seconds=seconds)
        if reply is None or reply.status in statuses and re.fullmatch(last, reply.last):
            return reply
        if 3 <= reply.status <= 11 and reply.last:
            raise Ended(reply.status, spelled(reply.last))
        raise Ended(STRANGE_PROGRAM, f"the program {self.path} ended with status {reply.status}, and wrote nothing of this form's")

    def run(self, *words, seconds=None):
        """The reply of a run or a deepening, whether there is an answer or not."""
        return self.must(*words, "--workers", "1", statuses=(DONE, FOUND, UNDECIDED), last=LAST_OF_RUN, seconds=seconds)


def end_group(process):
    """Ends a process that was begun here, with those that it has begun."""
    try:
        os.killpg(process.pid, signal.SIGKILL)
    except OSError:
        pass
    process.communicate()


def told(error):
    """The words of the system for an error."""
    return (getattr(error, "strerror", None) or str(error)).lower()


def spelled(text):
    """A text with a character for each byte as the text that the bytes spell."""
    return text.encode("latin-1").decode("utf-8", "replace")


def named(name):
    """A name of a file as the program takes it as a name."""
    return os.path.join(".", name) if name.startswith("-") else name


def read_bytes(name, most=LARGEST_TEXT):
    """The bytes of a file, at most so many: those that a text of the program may have."""
    try:
        if not stat.S_ISREG(os.stat(name).st_mode):
            raise Ended(UNREADABLE, f"{name} is no file that can be read twice")
        with open(name, "rb") as file:
            text = file.read(most + 1)
    except FileNotFoundError:
        raise Ended(ABSENT, f"there is no file {name}") from None
    except (OSError, ValueError) as error:
        raise Ended(UNREADABLE, f"{name} can't be read: {told(error)}") from None
    if len(text) > most:
        raise Ended(TOO_LONG, f"{name} has more than {most} bytes")
    return text


def read_text(name):
    """The text of a file, with a character for each byte."""
    return read_bytes(name).decode("latin-1")


def opened(name):
    """A file to be read once, or standard input where there is no name."""
    if name is None:
        if sys.stdin is None:
            raise Ended(UNREADABLE, "there is no standard input")
        return sys.stdin.buffer
    try:
        return open(name, "rb")
    except FileNotFoundError:
        raise Ended(ABSENT, f"there is no file {name}") from None
    except (OSError, ValueError) as error:
        raise Ended(UNREADABLE, f"{name} can't be read: {told(error)}") from None


def pieces_of(name, most):
    """The lines of a file or of standard input as they come, those that are longer than `most` bytes in pieces."""
    with opened(name) as file:
        while True:
            try:
                piece = file.readline(most)
            except OSError as error:
                raise Ended(UNREADABLE, f"{name or 'standard input'} can't be read: {told(error)}") from None
            if not piece:
                return
            yield piece


def own_folder():
    """A folder for texts of the tool's own, which is gone at the end."""
    try:
        return tempfile.TemporaryDirectory()
    except OSError as error:
        raise Ended(UNWRITABLE, f"there is no folder for texts of its own: {told(error)}") from None


def write_file(name, text):
    """Writes a file of its own."""
    try:
        with open(name, "wb") as file:
            file.write(text)
    except (OSError, ValueError) as error:
        raise Ended(UNWRITABLE, f"{name} can't be written: {told(error)}") from None


def written(work, words):
    """The status of a tool's work, once all that it wrote is out."""
    if sys.stdout is None:
        raise Ended(UNWRITABLE, "there is no standard output")
    try:
        sys.stdout.reconfigure(encoding="utf-8", errors="surrogateescape", newline="\n")
        try:
            status = work(words)
        finally:
            # The process ends with no flush of its own, also behind a page of help and where the work ends with a sentence.
            sys.stdout.flush()
        return status or DONE
    except (BrokenPipeError, OSError) as error:
        # What is left to be written has nowhere to go.
        os.dup2(os.open(os.devnull, os.O_WRONLY), 1)
        raise Ended(UNWRITABLE, f"standard output can't be written: {told(error)}") from None


def outcome(work, words):
    """The status of a tool's work and its sentence, if it ends with one."""
    try:
        return written(work, words), None
    except Ended as end:
        return end.status, end.sentence
    except SystemExit as end:
        return end.code or DONE, None
    except RecursionError:
        return TOO_DEEP, "the text nests deeper than this tool can follow"
    except MemoryError:
        return NO_MEMORY, "memory ran out"
    except Exception as error:  # pylint: disable=broad-exception-caught
        return OWN_FAULT, f"this is a fault of the tool itself: {type(error).__name__}: {error}"


def run_tool(work):
    """Does a tool's work with room for texts that nest deep, and ends the process."""
    results = []
    sys.setrecursionlimit(DEEPEST)
    try:
        threading.stack_size(STACK_BYTES)
        thread = threading.Thread(target=lambda: results.append(outcome(work, sys.argv[1:])), daemon=True)
        thread.start()
        thread.join()
    except KeyboardInterrupt:
        for process in list(Program.running):
            end_group(process)
        results = [(INTERRUPTED, "interrupted")]
    except (RuntimeError, ValueError, MemoryError):
        results = [(NO_MEMORY, "memory ran out")]
    status, sentence = results[0] if results else (NO_MEMORY, "memory ran out")
    if sentence:
        say(sentence)
    if sys.stderr is not None:
        sys.stderr.flush()
    os._exit(status)


def say(sentence):
    """Writes a sentence of the tool to standard error, if it is there."""
    line = f"{os.path.basename(sys.argv[0])}: {sentence}".replace("\n", " ")
    try:
        os.write(2, f"{line}\n".encode("utf-8", "surrogateescape"))
    except OSError:
        pass
