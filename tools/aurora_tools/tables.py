"""Tables of others, read as blocks of columns: CSV with headings, TSV, JSON lines, an array of JSON and access logs, packed or not."""
import bz2
import contextlib
import csv
import gzip
import io
import itertools
import json
import lzma
import os
import re
import shutil
import stat
import subprocess
import sys
import tempfile

from . import front

FORMS = ("csv", "tsv", "jsonl", "clf")
ENDINGS = {"csv": "csv", "tsv": "tsv", "jsonl": "jsonl", "ndjson": "jsonl", "json": "jsonl"}
PACKED_ENDINGS = (".gz", ".zst", ".bz2", ".xz")
CHUNK, CELLS, MOST_ITEM = 1 << 18, 50_000, 1 << 20
LOG_COLUMNS = ("host", "ident", "user", "time", "method", "path", "protocol", "status", "bytes", "referer", "agent")
QUOTED = r'"((?:[^"\\]|\\.)*+)"'
LOG = re.compile(rf'(\S+) (\S+) ([^\[]*) \[([^\]]*)\] {QUOTED} ([0-9]{{3}}|-) ([0-9]+|-)(?: {QUOTED} {QUOTED})?')
OTHERS = {
    b"PAR1": "it is Parquet: write it as CSV first",
    b"PK\x03\x04": "it is a zip or a spreadsheet: unpack it, or save it as CSV",
    b"\xff\xfe": "it is UTF-16: iconv -f UTF-16 -t UTF-8",
    b"\xfe\xff": "it is UTF-16: iconv -f UTF-16 -t UTF-8",
}


class Refused(Exception):
    """Why something can't be written exactly."""


class BadRow(Refused):
    """What is wrong in a row, counted from 0 from the table's first on, and in which column."""

    def __init__(self, row, column, why):
        super().__init__(why)
        self.row, self.column = row, column


@contextlib.contextmanager
def unpacked_by_zstd(path):
    if not shutil.which("zstd"):
        raise Refused(f"{path} is packed by zstd, which isn't there; Debian's package zstd has it")
    with open(path, "rb") as packed, subprocess.Popen(["zstd", "-dcq"], stdin=packed, stdout=subprocess.PIPE, stderr=subprocess.PIPE) as zstd:
        ended = False
        try:
            yield zstd.stdout
            ended = zstd.stdout.closed or not zstd.stdout.read(1)
        finally:
            if not ended:
                zstd.terminate()
            zstd.stdout.close()
            why = zstd.stderr.read().decode(errors="replace").strip()
    if zstd.returncode > 0:
        raise Refused(f"{path}: zstd: {why or zstd.returncode}")


UNPACKERS = {b"\x1f\x8b": gzip.open, b"BZh": bz2.open, b"\xfd7zXZ": lzma.open, b"\x28\xb5\x2f\xfd": unpacked_by_zstd}


def rows_as_columns(rows, width):
    """Returns the columns of rows that all have this width."""
    return list(zip(*rows)) if rows else [()] * width


class Table:
    """A table that can be read again and again: what comes from a pipe is kept in a file without a name meanwhile."""

    def __init__(self, path, form, separator, missing=()):
        self.path, self.separator, self.missing, self.kept = path, separator, missing, None
        name = next((path.removesuffix(it) for it in PACKED_ENDINGS if path.endswith(it)), path)
        self.form = form or ENDINGS.get(os.path.splitext(name)[1][1:].lower())
        if not self.form:
            raise Refused(f"{path} doesn't end in .csv, .tsv, .jsonl or .json: say --form")
        self.place = path
        if path == "-" or not stat.S_ISREG(os.stat(path).st_mode):
            self.kept = tempfile.NamedTemporaryFile()
            with open(sys.stdin.fileno() if path == "-" else path, "rb", closefd=path != "-") as pipe:
                front.look_at_input(pipe, path)
                shutil.copyfileobj(pipe, self.kept)
            self.kept.flush()
            self.place = self.kept.name
        with open(self.place, "rb") as file:
            self.magic = file.read(6)
        for magic, why in OTHERS.items():
            if self.magic.startswith(magic):
                raise Refused(f"{path}: {why}")

    @contextlib.contextmanager
    def text(self):
        unpacker = next((it for magic, it in UNPACKERS.items() if self.magic.startswith(magic)), None)
        try:
            with unpacker(self.place) if unpacker else open(self.place, "rb") as file:
                text = io.TextIOWrapper(io.BufferedReader(file, CHUNK) if unpacker else file, encoding="utf-8-sig", newline="")
                yield text
                text.detach()
        except UnicodeDecodeError as why:
            raise Refused(f"{self.path}{self.where_no_text()}: byte {why.object[why.start]:02X} is no UTF-8: iconv -f LATIN1 -t UTF-8") from None
        except csv.Error as why:
            raise Refused(f"{self.path}: {why}") from None
        except (OSError, EOFError, lzma.LZMAError, gzip.zlib.error) as why:
            raise Refused(f"{self.path}: {getattr(why, 'strerror', None) or why}") from None

    def where_no_text(self):
        """Returns the line that isn't UTF-8, where the file isn't packed."""
        with open(self.place, "rb") as file:
            for number, line in enumerate(file, 1):
                try:
                    line.decode()
                except UnicodeDecodeError:
                    return f", line {number}"
        return ""

    def blocks(self, wanted):
        """Yields the columns by their names, block by block. JSON has those that are wanted, or where none is all that its block has."""
        with self.text() as text:
            if self.form == "clf":
                yield from log_blocks(text, wanted)
            elif self.form == "jsonl":
                yield from json_blocks(text, wanted, self.missing)
            else:
                yield from self.cut_blocks(text, wanted)

    def rows(self, text):
        style = {"delimiter": self.separator, "strict": True} if self.form == "csv" else {"delimiter": "\t", "quoting": csv.QUOTE_NONE}
        return csv.reader(text, **style)

    def headings(self, text):
        rows = self.rows(text)
        heads = next(rows, None)
        if not heads:
            raise Refused("there is no line of headings")
        for at, head in enumerate(heads):
            if head in heads[:at]:
                raise Refused(f"line 1: the heading {head!r} stands twice")
        return heads

    def columns(self):
        """Returns the columns; of JSON those of its beginning."""
        if self.form == "clf":
            return LOG_COLUMNS
        if self.form == "jsonl":
            return list(next(self.blocks(()), {}))
        with self.text() as text:
            return self.headings(text)

    def cut_blocks(self, text, wanted):
        """Cuts chunks of lines by their separators alone as long as no quote is met, and from there on row by row."""
        heads, separator = self.headings(text), "\t" if self.form == "tsv" else self.separator
        wanted = [(name, at) for at, name in enumerate(heads) if not wanted or name in wanted]
        first = 0
        while chunk := text.read(CHUNK):
            chunk += text.readline()
            quoted = self.form == "csv" and '"' in chunk
            columns = None if quoted else flat(chunk, separator, len(heads), wanted)
            if columns is not None:
                yield {name: cells for (name, _), cells in zip(wanted, columns)}
                first += len(columns[0])
                continue
            lines = io.StringIO(chunk, newline="")
            rows = filter(None, self.rows(itertools.chain(lines, text) if quoted else lines))
            while block := list(itertools.islice(rows, max(64, CELLS // len(heads)))):
                if set(map(len, block)) != {len(heads)}:
                    at = next(at for at, row in enumerate(block) if len(row) != len(heads))
                    raise BadRow(first + at, None, f"{len(block[at])} fields, and {len(heads)} headings")
                columns = rows_as_columns(block, len(heads))
                yield {name: columns[at] for name, at in wanted}
                first += len(block)

    def line_of(self, row):
        """Returns in which line a row ends, as words."""
        with self.text() as text:
            if self.form == "clf" or self.form == "jsonl" and not is_array(text):
                lines = (number for number, line in enumerate(text, 1) if line.strip())
                return f"line {next(itertools.islice(lines, row, None))}"
            if self.form == "jsonl":
                return f"item {row + 1}"
            rows = self.rows(text)
            lines = (rows.line_num for it in rows if it)
            return f"line {next(itertools.islice(lines, row + 1, None))}"


def flat(chunk, separator, width, wanted):
    """Returns the wanted columns of lines that all have this width and no quotes, else None."""
    if "\r" in chunk:
        chunk = chunk.replace("\r\n", "\n")
    if "\r" in chunk or width == 1:
        return None
    chunk += "" if chunk.endswith("\n") else "\n"
    cells, count = chunk.replace("\n", f"{separator}\n{separator}").split(separator), chunk.count("\n")
    ends = cells[width::width + 1]
    if len(cells) != count * (width + 1) + 1 or ends.count("\n") != count:
        return None
    del cells[-1]
    return [cells[at::width + 1] for _, at in wanted]


def log_blocks(text, wanted):
    """Cuts an access log in the common or combined form. What stands as - is missing."""
    wanted = [(name, at) for at, name in enumerate(LOG_COLUMNS) if not wanted or name in wanted]
    lines, first = (it for it in text if it.strip()), 0
    while block := list(itertools.islice(lines, CELLS // len(LOG_COLUMNS))):
        found = [LOG.match(line) for line in block]
        if None in found:
            raise BadRow(first + found.index(None), None, "no line of an access log: host ident user [time] \"request\" status bytes")
        rows = []
        for host, ident, user, time, request, *rest in (it.groups("-") for it in found):
            method, _, other = request.partition(" ")
            path, _, protocol = other.rpartition(" ")
            rows.append((host, ident, user, time, *((method, path, protocol) if path else ("-", request or "-", "-")), *rest))
        columns = rows_as_columns(rows, len(LOG_COLUMNS))
        yield {name: ["" if it == "-" else it for it in columns[at]] for name, at in wanted}
        first += len(block)


class Twice(ValueError):
    """A key of an object that stands twice."""


def pairs(found):
    row = dict(found)
    if len(row) < len(found):
        raise Twice("a key stands twice in an object")
    return row


class Constant(str):
    """NaN or Infinity, which JSON doesn't have."""


DECODER = json.JSONDecoder(parse_int=str, parse_float=str, parse_constant=Constant, object_pairs_hook=pairs)


def is_array(text):
    """Says whether a text of which nothing is read yet begins with a bracket."""
    return text.buffer.peek(64).removeprefix(b"\xef\xbb\xbf").lstrip().startswith(b"[")


def json_items(text):
    """Yields the items of an array of JSON."""
    held, at, more = text.read(CHUNK).lstrip()[1:], 0, True
    for number in itertools.count():
        while True:
            at = len(held) - len(held[at:].lstrip(" \t\r\n,")) if number else len(held) - len(held[at:].lstrip())
            try:
                if held[at:at + 1] == "]":
                    return
                row, at = DECODER.raw_decode(held, at)
                break
            except (ValueError, RecursionError) as why:
                if isinstance(why, (Twice, RecursionError)) or not more or len(held) - at > MOST_ITEM:
                    raise BadRow(number, None, "nested too deeply" if isinstance(why, RecursionError) else str(why)) from None
                chunk = text.read(CHUNK)
                held, at, more = held[at:] + chunk, 0, bool(chunk)
        if at > CHUNK:
            held, at = held[at:], 0
        yield row


def json_lines(text):
    """Yields the values of lines of JSON."""
    for number, line in enumerate(line for line in text if line.strip()):
        try:
            yield DECODER.decode(line)
        except RecursionError:
            raise BadRow(number, None, "nested too deeply") from None
        except ValueError as why:
            raise BadRow(number, None, str(why)) from None


def cell_of(value, missing):
    """Returns a value of JSON as text; null is missing."""
    if value is True or value is False:
        return "true" if value else "false"
    if value is None or isinstance(value, str) and value in missing:
        return ""
    if value == "" or isinstance(value, Constant):
        what = f"{value} is no value of JSON" if value else "an empty text"
        raise Refused(f"{what}: --missing {value or repr('')} takes it for Null")
    if isinstance(value, (dict, list)):
        raise Refused("a list or an object is no field")
    try:
        value.encode()
    except UnicodeEncodeError:
        raise Refused("a text with half of a character") from None
    return value


def json_blocks(text, wanted, missing):
    items, first, known = (json_items if is_array(text) else json_lines)(text), 0, dict.fromkeys(wanted)
    while block := list(itertools.islice(items, 2048)):
        columns = {}
        for at, row in enumerate(block):
            if not isinstance(row, dict):
                raise BadRow(first + at, None, "not an object")
            if not wanted:
                known.update(dict.fromkeys(row))
        for name in known:
            cells = [row.get(name) for row in block]
            if not all(map(plain_text, cells)):
                for at, value in enumerate(cells):
                    try:
                        cells[at] = cell_of(value, missing)
                    except Refused as why:
                        raise BadRow(first + at, name, str(why)) from None
            columns[name] = cells
        yield columns
        first += len(block)


def plain_text(value):
    return type(value) is str and value != "" and value.isascii()
