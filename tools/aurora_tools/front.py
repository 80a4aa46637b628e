"""What all tools do alike at their front: words, --help and --version, lines that fit a terminal, how they end, and files that are
written whole or not at all."""
import argparse
import contextlib
import os
import re
import secrets
import shutil
import signal
import stat
import sys
import tempfile
import textwrap


LINE_OF_HELP = re.compile(r"(    \S.*?)(?:  +(\S.*))?$")


def version():
    """Returns the version: the file VERSION beside the installed tools, or at the top of the repository."""
    tools = os.path.dirname(os.path.dirname(os.path.realpath(__file__)))
    for path in (f"{tools}/VERSION", f"{os.path.dirname(tools)}/VERSION"):
        with contextlib.suppress(OSError), open(path, encoding="utf-8") as file:
            return file.read().strip()
    return "of no known version"


def columns(stream, otherwise):
    """Returns how wide the terminal is that a stream goes to: COLUMNS, or what the terminal says, or where there is none this."""
    if is_between(told := os.environ.get("COLUMNS", ""), 1, 10_000):
        return max(30, int(told))
    with contextlib.suppress(ValueError, OSError):
        return max(30, os.get_terminal_size(stream.fileno()).columns)
    return otherwise


def fitted(text, stream):
    """Returns lines as they fit the terminal of a stream, those that show a file's line as they are. Where there is no terminal all are."""
    width = columns(stream, 0)

    def lines(line):
        if not width or len(line) <= width or re.match(r" +[0-9]* \|", line):
            return line
        indent = line[:len(line) - len(line.lstrip())]
        return textwrap.fill(line.strip(), width, initial_indent=indent, subsequent_indent=indent + "  ", break_on_hyphens=False, break_long_words=False)
    return "\n".join(map(lines, text.split("\n")))


def help_of(about, width):
    """Returns the text of a tool as it fits so many columns: each paragraph, and each word with what it means, is filled anew."""
    hang = 28 if width >= 72 else 8
    found = []
    for block in about.strip().split("\n\n"):
        entries = []
        for line in block.split("\n"):
            entry = LINE_OF_HELP.match(line)
            if entry and not line.startswith("     "):
                entries.append([entry[1], entry[2] or ""])
            elif entries:
                entries[-1][1] += " " * bool(entries[-1][1]) + line.strip()
            else:
                entries.append(["", line.strip()])
        for words, said in entries:
            room, begin = (hang, words.ljust(hang - 1) + " ") if words else (0, "")
            if said and words and len(begin) > hang:
                found.append(words)
                begin = " " * hang
            found += textwrap.wrap(said, width, initial_indent=begin, subsequent_indent=" " * room, break_on_hyphens=False) if said else [words]
        found.append("")
    return "\n".join(found[:-1])


def answered(name, about, words):
    """Answers --help, -h and --version, and says whether one of them was asked."""
    if "-h" in words or "--help" in words:
        print(help_of(about.replace(f"tools/{name}", f"aurora-{name}"), min(columns(sys.stdout, 120), 140)))
        return True
    if "--version" in words:
        print(f"aurora-{name} {version()}")
        return True
    return False


def complaint(name, why):
    """Ends a tool whose words are none: a line, and the status 2."""
    print(f"{name}: {clean(why)}; aurora-{name} --help tells more", file=sys.stderr)
    sys.exit(2)


# Until a tool runs Ctrl-C ends it at once, and not somewhere in what is imported.
signal.signal(signal.SIGINT, signal.SIG_DFL)


def parser(name, about):
    """Returns a parser of words whose help is the text of a tool, and whose complaint is one line."""
    made = argparse.ArgumentParser(prog=name, description=about, usage=argparse.SUPPRESS, add_help=False, allow_abbrev=False)
    made.error = lambda why: complaint(name, why)
    return made


def parsed(made):
    """Returns the words, or shows the help or the version where these are asked for."""
    if answered(made.prog, made.description, sys.argv[1:]):
        sys.exit(0)
    return made.parse_args()


def is_between(text, least, most):
    """Says whether a text is a whole number as the program takes one, which has digits alone, from the least to the most."""
    return text.isascii() and text.isdigit() and len(text) <= 20 and least <= int(text) <= most


def whole(least, most):
    """Returns what reads such a number among the words of a tool."""
    def read(text):
        if not is_between(text, least, most):
            raise argparse.ArgumentTypeError(f"`{text}` is no whole number from {least:,} to {most:,}")
        return int(text)
    return read


def clean(text):
    """Returns a text of data as it may go to a terminal: what isn't printable, line feeds and marks of direction too, stands as its code."""
    return "".join(it if it.isprintable() else code_of(ord(it)) for it in str(text))


def code_of(number):
    return f"\\x{number:02x}" if number < 256 else f"\\u{number:04x}" if number < 1 << 16 else f"\\U{number:08x}"


def blanked(text):
    """Returns a text for XML and for a line of which the columns count: what isn't printable is a blank."""
    return "".join(it if it.isprintable() else " " for it in text)


def stop(name, why):
    """Ends a tool with a line."""
    print(f"{name}: {clean(why)}", file=sys.stderr)
    sys.exit(1)


def said(why):
    """Returns what went wrong with a file, without the number of the system's error."""
    if isinstance(why, OSError) and why.strerror:
        return clean(f"{why.filename or 'standard output'}: {why.strerror}")
    if isinstance(why, UnicodeDecodeError):
        return f"byte {why.object[why.start]:02X} is no UTF-8"
    return clean(why)


def run(name, main, *faults):
    """Runs a tool. These faults, and Ctrl-C, end it with a line; a reader that went away ends it without a word, as it ends any program."""
    # One that is closed is opened on nothing, so that no file that is opened later is taken for it.
    for number, stream in ((1, "stdout"), (2, "stderr")):
        if getattr(sys, stream) is None:
            nothing = os.open(os.devnull, os.O_RDONLY if number == 1 else os.O_WRONLY)
            if nothing != number:
                os.dup2(nothing, number)
            setattr(sys, stream, open(number, "w", encoding="utf-8", closefd=False))
        getattr(sys, stream).reconfigure(encoding="utf-8", errors="backslashreplace")
    for sign in (signal.SIGTERM, signal.SIGHUP):
        signal.signal(sign, lambda number, _: sys.exit(128 + number))
    try:
        signal.signal(signal.SIGINT, signal.default_int_handler)
        try:
            status = main()
            sys.stdout.flush()
        except BrokenPipeError:
            os.dup2(os.open(os.devnull, os.O_WRONLY), 1)
            sys.exit(128 + signal.SIGPIPE)
        except (OSError, UnicodeDecodeError, *faults) as why:
            print(f"{name}: {said(why)}", file=sys.stderr)
            # What is still to be written out would fail once more at the end.
            os.dup2(os.open(os.devnull, os.O_WRONLY), 1)
            sys.exit(1)
        sys.exit(status)
    except KeyboardInterrupt:
        signal.signal(signal.SIGINT, signal.SIG_DFL)
        print(f"{name}: interrupted", file=sys.stderr, flush=True)
        os.kill(os.getpid(), signal.SIGINT)


def state_of(path):
    """Returns what the system knows of a file, of standard input where it is `-`; None where it isn't there."""
    try:
        return os.fstat(0) if path == "-" else os.stat(path)
    except (OSError, ValueError):
        return None


def one_of(path, others):
    """Returns which of these files a path is, by whatever name, or None."""
    own = os.stat(path) if os.path.exists(path) else None
    return next((it for it in others if own and (other := state_of(it)) and os.path.samestat(own, other)), None)


def look_at_input(file, path):
    """Stops where what is opened to be read is a device that has no end, as /dev/zero."""
    state, nothing = os.fstat(file.fileno()), state_of(os.devnull)
    plain = not (stat.S_ISBLK(state.st_mode) or stat.S_ISCHR(state.st_mode)) or nothing and state.st_rdev == nothing.st_rdev
    if not plain and not os.isatty(file.fileno()):
        raise OSError(f"{path} is a device: a file or a pipe is read")


def spare(path, inputs):
    """Stops where a file that is to be written is one of those that are read."""
    if path != "-" and (same := one_of(path, inputs)):
        raise OSError(f"{path} is {'standard input' if same == '-' else same}, which is read: it isn't written over")


@contextlib.contextmanager
def written(path, *inputs):
    """Opens a file to be written in bytes, `-` for standard output. Where the block ends well it is there, and else nothing is changed."""
    spare(path, inputs)
    plain = path != "-" and (not os.path.exists(path) or stat.S_ISREG(os.stat(path).st_mode))
    if not plain:
        with tempfile.TemporaryFile() as file:
            yield file
            file.seek(0)
            try:
                with open(sys.stdout.fileno() if path == "-" else path, "wb", closefd=path != "-") as target:
                    shutil.copyfileobj(file, target, 1 << 20)
            except BrokenPipeError:
                raise
            except OSError as why:
                raise OSError(why.errno, why.strerror, "standard output" if path == "-" else path) from None
        return
    with beside(path) as name, open(name, "x+b", opener=lambda name, flags: os.open(name, flags, 0o600)) as file:
        yield file


def usual_mode():
    """Returns the rights that a new file has."""
    mask = os.umask(0)
    os.umask(mask)
    return 0o666 & ~mask


@contextlib.contextmanager
def aside(path):
    """Gives a name beside a file for one that is made, which goes at the end where it still has this name."""
    # The name is chosen before the file is there, so that whatever interrupts this finds what to take away.
    name = os.path.join(os.path.dirname(path), f".{os.path.basename(path)[:40]}.{os.getpid()}.{secrets.token_hex(4)}")
    try:
        yield name
    except OSError as why:
        if why.strerror and why.filename in (None, name):
            raise OSError(why.errno, why.strerror, path) from None
        raise
    finally:
        with contextlib.suppress(FileNotFoundError):
            os.unlink(name)


@contextlib.contextmanager
def beside(path):
    """Gives the name of a file that is made beside another; where the block ends well it takes its place, with its rights, and else it goes."""
    path = os.path.realpath(path)
    mode = stat.S_IMODE(os.stat(path).st_mode) if os.path.exists(path) else usual_mode()
    with aside(path) as name:
        yield name
        os.chmod(name, mode)
        os.replace(name, path)


def place(name, path):
    """Gives a file that was made aside its own name, where nothing has it, not even since a moment ago."""
    os.chmod(name, usual_mode())
    try:
        os.link(name, path)
    except OSError as why:
        if os.path.lexists(path) or isinstance(why, FileExistsError):
            raise FileExistsError(f"{path} is there already") from None
        # There are disks on which no file has two names.
        os.rename(name, path)
