#!/usr/bin/env python3
"""Makes the man page and the completion for bash from the one help text, that of `bin/signoff --help`, which needs no build.

bench/help.py            writes docs/signoff.1 and etc/signoff.bash
bench/help.py --check    says which of them isn't what the text gives; the status is 1 then
"""
import os
import re
import subprocess
import sys

TOP = os.path.dirname(os.path.dirname(os.path.abspath(__file__)))
PAGE, COMPLETION = "docs/signoff.1", "etc/signoff.bash"


def told_by(word):
    """What bin/signoff says to a word."""
    return subprocess.run([f"{TOP}/bin/signoff", word], capture_output=True, text=True, check=True).stdout


class Help:
    """The parts of the help text."""

    def __init__(self, text):
        head, _, rest = text.partition("\n\n")
        commands, _, rest = rest.partition("\n\n")
        options, _, statuses = rest.partition("\n\n")
        self.call, self.files = head.split("\n", 1)
        self.commands = entries_of(commands.split("\n"))
        lines = options.split("\n")
        self.place = lines[0].rstrip(":")
        self.options = entries_of([it for it in lines[1:] if it.startswith(" ")])
        self.rules = " ".join(it for it in lines[1:] if not it.startswith(" "))
        found = re.findall(r"(?:^|  )\s*(\d+)  (.*?)(?=\s{2,}\d+  |$)", statuses, re.M)
        self.statuses = sorted((int(number), told.strip()) for number, told in found)

    def with_values(self, *kinds):
        """The names of the options whose value has one of these words."""
        return [it.split()[0] for it, _ in self.options if it.split()[1:] and it.split()[1] in kinds]

    def options_of(self, command):
        """The names of the options that a command takes."""
        names = [it.split()[0] for it, _ in self.options]
        sentence = re.search(r"([a-z, ]+?) take no option", self.rules).group(1)
        if command in re.findall(r"[a-z]+", sentence):
            return []
        alone = re.search(rf"\b{command} takes (--\w+) alone", self.rules)
        if alone:
            return [alone.group(1)]
        refused = re.search(rf"\b{command} (?:no|neither) (--\w+)(?: nor (--\w+))?", self.rules)
        owners = {it.split()[0]: told.split(":")[0] for it, told in self.options if re.match(r"[a-z]+: ", told)}
        return [it for it in names if owners.get(it, command) == command and not (refused and it in refused.groups())]


def entries_of(lines):
    """What is told of, and what is told: a column each, or the first on a line of its own."""
    made = []
    for line in lines:
        if line.startswith("   "):
            made[-1] = (made[-1][0], f"{made[-1][1]} {line.strip()}".strip())
        else:
            name, _, told = line.strip().partition("  ")
            made.append((name, told.strip()))
    return made


def roff(text):
    """A text in which roff reads no command."""
    text = text.replace("\\", "\\e").replace("-", "\\-").replace("`", "\\(ga").replace("'", "\\(aq")
    return "\\&" + text if text.startswith(".") else text


def tagged(entries):
    return [line for name, told in entries for line in (".TP", f".B {roff(name)}", roff(told))]


def page_of(text, version):
    """The man page."""
    number, what = re.match(r"signoff ([\d.]+), (.*?);", version).groups()
    lines = [
        '.\\" Made by bench/help.py from the text of signoff --help.',
        f'.TH SIGNOFF 1 "" "signoff {number}" "User Commands"',
        ".SH NAME", f"signoff \\- {roff(what)}",
        ".SH SYNOPSIS", f".B {roff(text.call.partition(': ')[2])}",
        ".SH DESCRIPTION", roff(text.files),
        ".SH COMMANDS", *tagged(text.commands),
        ".SH OPTIONS", roff(text.place + "."), *tagged(text.options), ".PP", roff(text.rules),
        ".SH EXIT STATUS", *tagged((str(number), told) for number, told in text.statuses),
    ]
    return "\n".join(lines) + "\n"


def completion_of(text):
    """The completion for bash: a command, its files, its options."""
    names = [it.split()[0] for it, _ in text.commands]
    cases = [f'    {it}) options="{" ".join(text.options_of(it))}" ;;' for it in names if text.options_of(it)]
    return f"""# Completion of signoff's words for bash. Made by bench/help.py from the text of signoff --help.
_signoff() {{
  local word=${{COMP_WORDS[COMP_CWORD]}} before=${{COMP_WORDS[COMP_CWORD - 1]}} options=
  if [ "$COMP_CWORD" = 1 ]; then
    COMPREPLY=($(compgen -W "{" ".join(names)} --help --version --memory" -- "$word"))
    return
  fi
  case $before in
    {"|".join(text.with_values("FILE"))}) COMPREPLY=($(compgen -f -- "$word")); return ;;
    {"|".join(text.with_values("B", "W", "S"))}) return ;;
  esac
  case ${{COMP_WORDS[1]}} in
{chr(10).join(cases)}
  esac
  case $word in
    -*) COMPREPLY=($(compgen -W "$options --help" -- "$word")) ;;
    *) COMPREPLY=($(compgen -f -- "$word")) ;;
  esac
}}
complete -o filenames -F _signoff signoff
"""


def standing(path):
    """What a file has, where there is one."""
    if not os.path.exists(f"{TOP}/{path}"):
        return None
    with open(f"{TOP}/{path}", encoding="utf-8") as it:
        return it.read()


def main(words):
    text = Help(told_by("--help"))
    made = {PAGE: page_of(text, told_by("--version")), COMPLETION: completion_of(text)}
    stale = [path for path, content in made.items() if standing(path) != content]
    if "--check" in words:
        print("\n".join(f"{it} isn't what the help text gives; bench/help.py writes it" for it in stale)
              or "the man page and the completion are what the help text gives")
        sys.exit(1 if stale else 0)
    for path in stale:
        os.makedirs(os.path.dirname(f"{TOP}/{path}"), exist_ok=True)
        with open(f"{TOP}/{path}", "w", encoding="utf-8") as it:
            it.write(made[path])
        print(f"wrote {path}")


if __name__ == "__main__":
    main(sys.argv[1:])
