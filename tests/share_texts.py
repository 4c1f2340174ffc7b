"""The man page and the completions of shells, made from what `odfilter --help` writes: for tests/share."""
import re
import subprocess

FILES = {"FILE"}  # the names of values that are files
DATE = "2026-11-27"  # of the page's own text


class Option:
    """An option: its spellings, the name of its value, what it says, and the commands that take it."""

    def __init__(self, spelled, value, text):
        self.spelled, self.value, self.text, self.commands = spelled, value, text, []

    def key(self):
        return self.spelled[-1]


class Help:
    """What the help of the program and of its commands says."""

    def __init__(self, program):
        self.program = program
        text = self.said("--help")
        self.about, self.version = text.partition("\n")[0], self.said("--version").strip()
        self.commands = dict(re.findall(r"^  (\w+) +(.*)$", section(text, "Commands"), re.MULTILINE))
        self.own = options_of(section(text, "Options"))
        self.examples = [line.strip() for line in section(text, "Examples").splitlines() if line.strip()]
        self.statuses = re.findall(r"^  (\d+) +(.*)$", section(text, "Statuses"), re.MULTILINE)
        self.options, self.usages = {}, {}
        for name in self.verbs():
            text = self.said(name, "--help")
            self.usages[name] = re.search(r"^Usage: (.*)$", text, re.MULTILINE)[1]
            for option in options_of(section(text, "Options")):
                self.options.setdefault(option.key(), option).commands.append(name)

    def said(self, *words):
        done = subprocess.run([self.program, *words], capture_output=True, timeout=60, check=True)
        return done.stdout.decode()

    def verbs(self):
        return [name for name in self.commands if name != "help"]

    def of_verb(self, verb):
        return [option for option in self.options.values() if verb in option.commands]


def section(text, title):
    """The lines below a title, up to the next one."""
    found = re.search(rf"^{title}:\n((?:  .*\n?|\n)*)", text, re.MULTILINE)
    return found[1] if found else ""


def options_of(text):
    for line in text.splitlines():
        found = re.match(r"^ +((?:-\w, )?--[\w-]+)(?: <([\w/]+)>)?(?:  +(.*))?$", line)
        if found:
            yield Option(found[1].split(", "), found[2], found[3] or "")


def roff(text):
    text = text.replace("\\", "\\e").replace("-", "\\-").replace("'", "\\(aq")
    return f"\\&{text}" if text[:1] in (".", "'") else text


def spelled_in_roff(option):
    names = ", ".join(f"\\fB{roff(name)}\\fR" for name in option.spelled)
    return f"{names} \\fI{option.value}\\fR" if option.value else names


def synopsis(verb, help_):
    """A command with its options: those that must be there, one of two, and the others in brackets."""
    words = [f"\\fBodfilter {verb}\\fR"]
    must = re.findall(r"--[\w-]+", help_.usages[verb])
    for option in help_.of_verb(verb):
        name = option.key()
        if name in must:
            words.append(spelled_in_roff(option))
        elif name == "--filter":
            either = [spelled_in_roff(help_.options[it]) for it in ("--filter", "--query")]
            words.append(f"({' | '.join(either)})")
        elif name not in ("--query", "--help"):
            words.append(f"[{spelled_in_roff(option)}]")
    return " ".join(words)


NOTES = """\
A schema is CSDL JSON. The filter is given by one of
.B \\-\\-filter
and
.BR \\-\\-query ,
and a text that begins with a hyphen as
.BR \\-\\-filter=\\fITEXT\\fR .
Of a query string no other option of the standard may stand beside the filter.
Rows are read as they come, from files or from standard input; the first faulty one ends the run, after the rows
kept before it have been written, unless it is to be skipped.
"""


def man_page(help_):
    lines = [f'.TH ODFILTER 1 "{DATE}" "{help_.version}" "User commands"', ".SH NAME"]
    lines += [f"odfilter \\- {roff(help_.about[0].lower() + help_.about[1:])}", ".SH SYNOPSIS"]
    for verb in help_.verbs():
        lines += [synopsis(verb, help_), ".br"]
    lines += ["\\fBodfilter\\fR " + "[" + " | ".join(spelled_in_roff(option) for option in help_.own) + "]"]
    lines += [".SH DESCRIPTION", NOTES.rstrip("\n"), ".SH COMMANDS"]
    for name, text in help_.commands.items():
        lines += [".TP", f"\\fB{name}\\fR", roff(text)]
    lines.append(".SH OPTIONS")
    for option in help_.options.values():
        lines += [".TP", spelled_in_roff(option), roff(option.text)]
        if option.commands != help_.verbs():
            lines.append(f"(\\fB{', '.join(option.commands)}\\fR)")
    lines.append(".SH EXIT STATUS")
    for number, text in help_.statuses:
        lines += [".TP", f"\\fB{number}\\fR", roff(text)]
    lines += [".SH EXAMPLES", ".nf", *map(roff, help_.examples), ".fi"]
    return "\n".join(lines) + "\n"


MADE = "made by `tests/share --write` from `odfilter --help`"


def bash(help_):
    """A function that completes commands, options and the names of files."""
    with_files = "|".join(name for name, option in help_.options.items() if option.value in FILES)
    with_texts = "|".join(name for name, option in help_.options.items() if option.value and option.value not in FILES)
    own = " ".join([*help_.commands, *(name for option in help_.own for name in option.spelled)])
    words = {verb: " ".join(option.key() for option in help_.of_verb(verb)) for verb in help_.verbs()}
    cases = "".join(f"    *:{verb}) words='{names}' ;;\n" for verb, names in words.items())
    return f"""# bash completion for odfilter, {MADE}
_odfilter() {{
  local current=${{COMP_WORDS[COMP_CWORD]}} before=${{COMP_WORDS[COMP_CWORD - 1]}} words=
  COMPREPLY=()
  case $before in
    {with_files})
      compopt -o filenames 2>/dev/null
      mapfile -t COMPREPLY < <(compgen -f -- "$current")
      return
      ;;
    {with_texts}) return ;;
  esac
  case $COMP_CWORD:${{COMP_WORDS[1]}} in
    1:*) words='{own}' ;;
    2:help) words='{' '.join(help_.verbs())}' ;;
{cases}  esac
  mapfile -t COMPREPLY < <(compgen -W "$words" -- "$current")
}}
complete -F _odfilter odfilter
"""


def quoted(text):
    """A text in single quotes, as zsh and fish have it."""
    return "'" + text.replace("\\", "\\\\").replace("'", "\\'") + "'"


def zsh_quoted(text):
    return "'" + text.replace("'", "'\\''") + "'"


def zsh_option(option):
    text = re.sub(r"([\[\]:])", r"\\\1", option.text)
    value = f":{option.value}:_files" if option.value in FILES else f":{option.value}:" if option.value else ""
    return zsh_quoted(f"{option.key()}[{text}]{value}")


def zsh(help_):
    commands = "\n".join(f"    {zsh_quoted(f'{name}:{text}')}" for name, text in help_.commands.items())
    own = " ".join(zsh_option(option) for option in help_.own)
    words = {verb: " \\\n        ".join(map(zsh_option, help_.of_verb(verb))) for verb in help_.verbs()}
    cases = "".join(f"    {verb})\n      _arguments \\\n        {given}\n      ;;\n" for verb, given in words.items())
    return f"""#compdef odfilter
# zsh completion for odfilter, {MADE}
_odfilter() {{
  local -a commands
  commands=(
{commands}
  )
  if (( CURRENT == 2 )); then
    _describe command commands
    _arguments {own}
    return
  fi
  local verb=$words[2]
  shift words
  (( CURRENT-- ))
  case $verb in
    help) _describe command commands ;;
{cases}  esac
}}
_odfilter "$@"
"""


def fish(help_):
    none = "not __fish_seen_subcommand_from " + " ".join(help_.commands)
    lines = [f"# fish completion for odfilter, {MADE}", "complete -c odfilter -f"]
    verbs = help_.commands.items()
    lines += [f"complete -c odfilter -n {quoted(none)} -a {name} -d {quoted(text)}" for name, text in verbs]
    pairs = [(option, none) for option in help_.own]
    pairs += [(it, "__fish_seen_subcommand_from " + " ".join(it.commands)) for it in help_.options.values()]
    for option, when in pairs:
        short = f" -s {option.spelled[0][1]}" if len(option.spelled) == 2 else ""
        kind = " -r -F" if option.value in FILES else " -x" if option.value else ""
        words = f"-l {option.key()[2:]}{short}{kind}"
        lines.append(f"complete -c odfilter -n {quoted(when)} {words} -d {quoted(option.text)}")
    return "\n".join(lines) + "\n"


# where each file stands below share/, as systems look for them, and what makes it
TEXTS = {
    "man/man1/odfilter.1": man_page,
    "bash-completion/completions/odfilter": bash,
    "zsh/site-functions/_odfilter": zsh,
    "fish/vendor_completions.d/odfilter.fish": fish,
}
