"""Runs a tool in a fork of the test: a process of its own, with its words, folder, streams and status, but without a start of Python.

What a test shows of a pipe, of a file that is full or of a signal it shows of a tool that is started as a user starts it.
"""
import os
import subprocess
import sys
import tempfile
import traceback
import warnings

CODES = {}


def code_of(path):
    """Returns the code of a tool, whose modules are loaded from then on, so that no fork loads them."""
    if path not in CODES:
        with open(path, "rb") as file:
            CODES[path] = compile(file.read(), path, "exec")
        before = list(sys.path)
        exec(CODES[path], {"__name__": "tool", "__file__": path})
        sys.path[:] = before
    return CODES[path]


def ended(code, words):
    """Runs a tool to its end and returns its status, as Python makes it."""
    sys.argv = list(words)
    # Tests show warnings that Python keeps to itself where a tool is started.
    warnings.simplefilter("ignore")
    try:
        exec(code, {"__name__": "__main__", "__file__": words[0]})
        status = 0
    except SystemExit as end:
        status = end.code if isinstance(end.code, int) else 0 if end.code is None else print(end.code, file=sys.stderr) or 1
    except BaseException:
        traceback.print_exc()
        status = 1
    sys.stdout.flush()
    sys.stderr.flush()
    return status


def become(code, words, cwd, env, files):
    """Is the tool, in a process that was just forked."""
    status = 70
    try:
        if env is not None:
            os.environ.clear()
            os.environ.update(env)
        os.chdir(cwd or ".")
        for number, file in enumerate(files):
            os.dup2(file.fileno(), number)
        sys.stdin, sys.stdout, sys.stderr = (open(number, mode, encoding="utf-8", newline="", closefd=False) for number, mode in enumerate("rww"))
        status = ended(code, words)
    finally:
        os._exit(status)


def run(words, cwd=None, env=None, input="", check=False):
    """Runs a tool as subprocess.run does with these words, texts as UTF-8."""
    code = code_of(words[0])
    with tempfile.TemporaryFile() as given, tempfile.TemporaryFile() as out, tempfile.TemporaryFile() as err:
        given.write(input.encode())
        given.seek(0)
        sys.stdout.flush()
        sys.stderr.flush()
        child = os.fork()
        if child == 0:
            become(code, words, cwd, env, (given, out, err))
        status = os.waitstatus_to_exitcode(os.waitpid(child, 0)[1])
        said = []
        for file in (out, err):
            file.seek(0)
            said.append(file.read().decode(errors="replace"))
    ran = subprocess.CompletedProcess(words, status, *said)
    if check:
        ran.check_returncode()
    return ran
