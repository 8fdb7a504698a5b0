"""Compares what --help of the programs says with the places that say the same again; docs/check calls it."""
import re
import subprocess
from functools import cache
from pathlib import Path

PROGRAMS = ["jinthbao", "jinthbao-spool", "jinthbao-finish"]
MAN = "packaging/man/"
BASH, ZSH, USING = "packaging/completion/jinthbao.bash", "packaging/completion/_jinthbao", "docs/USING.md"
DESCRIBE, PROOF = "queue/describe.py", "docs/PROOF.md"
# Which document has the table of a program's statuses
TABLES = {"jinthbao": PROOF, "jinthbao-spool": USING}
# Where the values of a word are listed: all that stands in the group, apart from these words and what is in brackets
FILLERS = {"Cm", "None", "and", "or"}
VALUES = [
    ("profile", BASH, r"_jinthbao_profiles\(\) \{\n +printf '%s\\n' (.*)"),
    ("profile", ZSH, r"compadd -S '' -- (.*) \$files"),
    ("profile", MAN + "jinthbao.1", r"one of the built-in\n([^,]*,[^,]*,.*\nand\n.*) ,"),
    ("kernel", BASH, r" kernel\) printf '%s\\n' (.*) ;;"),
    ("kernel", ZSH, r"kernel:\((.*)\)"),
    ("kernel", MAN + "jinthbao-print.1", r"shared out:\n((?:.*\n)*?)\.Pq"),
    ("kernel", USING, r"\| `kernel=NAME` \| (.*?) \|"),
    ("kernel", DESCRIBE, r"^KERNELS = \[((?:.*\n)*?.*\])$"),
    ("kind", BASH, r" kind\) printf '%s\\n' (.*) ;;"),
    ("kind", ZSH, r"kind:\((.*)\)"),
    ("kind", MAN + "jinthbao-trial.1", r"It Cm kind= Ns Ar NAME\n((?:.*\n)*?)\.Pq"),
    ("kind", USING, r"\| `kind=NAME` \| (.*?) \|"),
]


def differences(programs, text):
    """For the first of PROGRAMS, as many as are given, and a function from a file's name to its text."""
    helps = [ask(program) for program in programs]
    found = [finding for name, told in zip(PROGRAMS, helps)
             for check in (words, statuses, named_causes) for finding in check(name, told, text)]
    for told in helps[:1]:
        found += [*values(told, text), *defaults(told, text), *limits(told, text), *causes(programs[0])]
    for told in helps[2:]:
        found += cut_jobs(helps[0], told, text)
    return found


@cache
def causes(program):
    asked = subprocess.run([Path(__file__).parent / "causes.py", program, "--check"], capture_output=True, text=True)
    return asked.stderr.splitlines()


@cache
def ask(program):
    return subprocess.run([program, "--help"], check=True, capture_output=True, text=True).stdout


def at(name, body, place, message):
    return f"{name}:{body.count(chr(10), 0, place) + 1}: {message}"


def differ(name, body, pattern, wanted, what):
    """A finding, if a place does not list just the words that are wanted."""
    found = re.search(pattern, body, re.MULTILINE)
    if not found:
        return [f"{name}:1: {what} are not found"]
    said = set(re.findall(r"[A-Za-z_]\w*", re.sub(r"\([A-Z].*?\)", "", found[1]))) - FILLERS
    message = f"{what} are not those of --help: {' '.join(sorted(said ^ set(wanted)))}"
    return [at(name, body, found.start(1), message)] if said != set(wanted) else []


def usage(name, told):
    """The words of each command, by its manual page."""
    text = " ".join(told.partition("usage:")[2].partition("\n\n")[0].split())
    for call in re.split(rf"(?={name} )", text):
        if "=" in call:
            command = call.split()[1]
            yield (name if "=" in command else f"{name}-{command}"), sorted(set(re.findall(r"(\w+)=[A-Z1]", call)))


def words(name, told, text):
    commands = [page.removeprefix("jinthbao-") for page, _ in usage(name, told)]
    if name == "jinthbao":
        yield from differ(BASH, text(BASH), r'compgen -W "([a-z ]*) --help --version" -- "\$', commands, "the commands")
        listed = re.findall(r"(?m)^\.Nm\n\.Cm (\w+)\n", text(MAN + "jinthbao.1"))
        if listed != commands:
            yield f"{MAN}jinthbao.1:1: the commands are not those of --help: {' '.join(listed)}"
    for page, keys in usage(name, told):
        file = f"{MAN}{page}.1"
        body = text(file)
        said = {*re.findall(r"Cm (\w+)= ", body.partition(".Sh SYNOPSIS")[2].partition(".Sh DESCRIPTION")[0])}
        if said != set(keys):
            yield f"{file}:1: the synopsis differs from --help: {' '.join(sorted(said ^ set(keys)))}"
        command = page.removeprefix("jinthbao-")
        if name == "jinthbao":
            row = re.search(rf"^\| `{command} (.*?)\|", text("README.md"), re.MULTILINE)
            if not row or set(re.findall(r"(\w+)=", row[1])) != set(keys):
                yield f"README.md:1: the words of {command} differ from --help"
        what, zsh = f"the words of {command}", re.sub(r"\$keys\[(\w+)\]|'(\w+)\[[^']*'", r"\1\2", text(ZSH))
        yield from differ(BASH, text(BASH), rf" {command}\) printf '%s\\n' ([a-z ]*) ;;$", keys, what)
        place = (rf"^    {command} '([a-z ]*)'$" if name == "jinthbao" else
                 rf"== {name} \]\]; then\n +_values -w word ((?:[a-z ]|\\\n)*)$")
        yield from differ(ZSH, zsh, place, keys, what)


def status_lines(told):
    """The error line of each status."""
    table = told.partition("exit status")[2].partition("\n\n")[0]
    return dict(re.findall(r"^(\d)  (.+?)(?:  .*)?$", table, re.MULTILINE))


def statuses(name, told, text):
    lines = status_lines(told)
    page = f"{MAN}{name}.1"
    said = {number: line or none for number, line, none in
            re.findall(r'^\.It (\d) Ta (?:Li "(.*?)"|(none)) Ta', text(page), re.MULTILINE)}
    if said != lines:
        yield f"{page}:1: the statuses differ from --help: {sorted(set(said.items()) ^ set(lines.items()))}"
    if not (file := TABLES.get(name)):
        return
    rows = re.findall(r"^\| (\d) \| (?:[^|]* \|)*? ?(?:`([^`|]*)`(?:; none [^|]*)?|(none)) \|",
                      text(file).partition("\n| Status |")[2].partition("\n\n")[0], re.MULTILINE)
    if (said := {number: line or none for number, line, none in rows}) != lines:
        yield f"{file}:1: the statuses differ from --help: {sorted(set(said.items()) ^ set(lines.items()))}"
    if name == "jinthbao" and (heads := re.findall(r"^### (\d): ", text(USING), re.MULTILINE)) != sorted(lines):
        yield f"{USING}:1: the headings of statuses differ from --help: {' '.join(heads)}"


def named_causes(name, told, text):
    """The causes of the spool or the finisher: its manual page names those that --help lists, and no other."""
    if name == "jinthbao":
        return
    page, cause = f"{MAN}{name}.1", r"[A-Z][a-z]\w+"
    listed = set(re.findall(cause, told.partition("says what a cause means")[2]))
    said = set(re.findall(cause, " ".join(re.findall(r"(?m)^\.(?:It )?Li (.*)$", text(page)))))
    if said != listed:
        yield f"{page}:1: the causes differ from --help: {' '.join(sorted(said ^ listed))}"


def cut_jobs(driver, finisher, text):
    """What USING.md says of the finisher, by its help: the words, and that the statuses are those of the driver."""
    part = text(USING).partition("\n## A job that is cut\n")[2].partition("\n## ")[0]
    keys = {key for _, listed in usage("jinthbao-finish", finisher) for key in listed}
    if (said := set(re.findall(r"\b(\w+)=", part))) != keys:
        yield f"{USING}:1: the words of finish differ from --help: {' '.join(sorted(said ^ keys))}"
    if other := status_lines(finisher).items() - status_lines(driver).items():
        yield f"{USING}:1: statuses of finish are not those of the driver: {sorted(other)}"


def wanted_values(told, key):
    listed = re.search(rf"(?m)^{key}=NAME +(.*?)(?:, or a file| \(default)", told)[1]
    return re.findall(r"\w+", re.sub(r"\(.*?\)| or ", " ", listed))


def values(told, text):
    for key, name, pattern in VALUES:
        wanted = wanted_values(told, key)
        body = re.sub(r'(\("\w+"), "[^"]*"\)', r"\1)", text(name)) if name == DESCRIBE else text(name)
        yield from differ(name, body, pattern, wanted, f"the values of {key}")


def defaults(told, text):
    entries = re.split(r"(?m)(?:^|, )(?=\w+=[A-Z1])", told.partition("\n\nprofile=")[2].partition("exit status")[0])
    for entry in ["profile=" + entries[0], *entries[1:]]:
        key = entry.partition("=")[0]
        found = re.search(r"\(default:? (\w+)|(\d+) \(the default\)", entry)
        wanted = found and (found[1] or found[2])
        said = list(stated(key, text)) if wanted else []
        if wanted and USING not in [name for name, _, _ in said]:
            yield f"{USING}:1: no table has the word {key}"
        for name, place, default in said:
            if default != wanted:
                yield at(name, text(name), place, f"the default of {key} is {wanted} in --help")


def stated(key, text):
    """The defaults of a word in the manual pages and in the tables of USING.md."""
    for page in ("print", "dots", "list", "trial"):
        name = f"{MAN}jinthbao-{page}.1"
        for found in re.finditer(rf"^\.It Cm {key}= .*\n((?:(?!\.It|\.El).*\n)*)", text(name), re.MULTILINE):
            for default in re.finditer(r"default:?(?: Cm)? (\w+)|([\d,]+), which is the default", found[1]):
                yield name, found.start(), (default[1] or default[2]).replace(",", "")
    row = rf"^\| `(?:\w+=NUMBER`, `)?{key}=[A-Z]\S*`.*\| `?([\w,]+?)`?(?:, (\w+))?(?:, which[^|]*| limit)? \|$"
    for found in re.finditer(row, text(USING), re.MULTILINE):
        second = f", `{key}=" in found[0]
        yield USING, found.start(), (found[2] if second else found[1]).replace(",", "")


def limits(told, text):
    """The greatest numbers of describe.py."""
    columns, rows = re.search(r"1 to (\d+) pixels .* 1 to (\d+) ", told).groups()
    for key, wanted in [("MOST_COLUMNS", int(columns)), ("MOST_INCHES", int(rows) // 720)]:
        if not re.search(rf"^{key} = {wanted}$", text(DESCRIBE), re.MULTILINE):
            yield f"{DESCRIBE}:1: {key} is not {wanted}, as in --help"
    kinds = re.sub(r'": Pixels.*', '"', text(DESCRIBE)).lower()
    wanted = {kind.rstrip("1") for kind in wanted_values(told, "kind")}
    yield from differ(DESCRIBE, kinds, r"^pixels = \{\n((?:.*\n)*?)\}", wanted, "the kinds of pixel")
    most = re.search(r"workers=NUMBER +1 to (\d+)", told)[1]
    if not re.search(rf"^WORKERS = \(1, .*\b{most}\)$", text(DESCRIBE), re.MULTILINE):
        yield f"{DESCRIBE}:1: WORKERS does not end with {most}, as in --help"
