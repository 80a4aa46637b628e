"""The words of `aurora run`, and why some are no command."""
from .finding import near
from .front import is_between

NUMBERS = {"--seed": (0, (1 << 64) - 1), "--train": (1, 4096), "--frames": (2, 16_384)}
OPTIONS = ("--capacities", "--seed", "--policy", "--picks", "--train", "--frames")


HELP = "`man aurora` is its help, and `aurora-explain --version` tells the version"
COMMANDS = ("run", "gen", "audit", "tap")


def of_command(command, *words):
    """Returns what is wrong with the words of an audit, or of a run that a number makes."""
    takes = {"audit": ("NET", "OUT"), "gen": ("NUMBER", "ROWS")}[command]
    if len(words) != 2:
        return [f"`aurora {command}` takes two words, {takes[0]} and {takes[1]}, and here {'is' if len(words) == 1 else 'are'} {len(words)}"]
    if command == "audit":
        return ["`aurora audit` takes NET and OUT, neither empty nor with a dash in front: what a run wrote is kept in a file, OUT"]
    faults = [f"NUMBER is `{words[0]}`, and must be 0 to {(1 << 64) - 1:,}"] * (not is_between(words[0], 0, (1 << 64) - 1))
    return faults + [f"ROWS is `{words[1]}`, and must be 1 to 1,000,000"] * (not is_between(words[1], 1, 1_000_000))


class Words:
    """NET and the options of a run as they were written, or NET and the text of an audit, and what is wrong with them."""

    def __init__(self, words):
        self.nets, self.options, self.faults, self.text = [], {}, [], ""
        words = list(words)
        if words[:1] in (["help"], ["version"], ["-h"], ["--help"], ["--version"]):
            self.faults.append(f"`aurora` has no `{words[0]}`: {HELP}")
            words = words[1:] if words[0].startswith("-") else words
        while words:
            word = words.pop(0)
            if word.startswith("--") and "=" in word:
                self.option(*word.split("=", 1))
            elif word.startswith("--") and word != "--":
                self.option(word, words.pop(0) if words and not words[0].startswith("-") else "")
            elif word.startswith("-"):
                self.faults.append(f"`{word}` is no option: they have two dashes and a name; a file of this name is written `./{word}`")
            else:
                self.nets.append(word)
        if self.nets[:1] in (["audit"], ["gen"]):
            self.faults += of_command(*self.nets)
            if self.nets[0] == "audit" and len(self.nets) == 3:
                self.nets, self.text = self.nets[1:2], self.nets[2]
        elif self.nets[:1] == ["run"] and len(self.nets) == 2:
            self.faults.append("the word `run` stands before NET already: aurora-explain takes the words behind it")
        elif len(self.nets) != 1 or not self.nets[0]:
            command = near(self.nets[0], COMMANDS) if len(self.nets) > 1 else ""
            named = f"{len(self.nets)} words could be it: {' '.join(self.nets)}" if any(self.nets) else "none is named"
            self.faults.append(f"a run takes one network file, and {named}{command}")
        if "--policy" in self.options and "--picks" in self.options:
            self.faults.append("`--policy` and `--picks` exclude each other")

    def option(self, name, value):
        if name in ("--help", "--version"):
            self.faults.append(f"`aurora` has no `{name}`: {HELP}")
        elif name not in OPTIONS:
            self.faults.append(f"there is no option `{name}`{near(name, OPTIONS)}; they are {', '.join(OPTIONS)}")
        elif name in self.options:
            self.faults.append(f"`{name}` stands twice")
        elif not value:
            self.faults.append(f"`{name}` has no value behind it, or one that begins with `-`: write {name}=VALUE")
        elif name in NUMBERS and not is_between(value, *NUMBERS[name]):
            self.faults.append(f"the value of `{name}` is `{value}`, and must be {NUMBERS[name][0]:,} to {NUMBERS[name][1]:,}")
        elif name == "--policy" and value not in ("rr", "long", "seeded"):
            self.faults.append(f"there is no policy `{value}`{near(value, ('rr', 'long', 'seeded'))}; they are rr, long and seeded")
        self.options[name] = value
