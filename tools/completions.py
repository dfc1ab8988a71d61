"""The completions of a program for bash, zsh and fish, by its commands and their options."""
import re
import typing

# For each shell the path of a program's completions below a folder such as /usr/local/share.
PATHS = {
    "bash": "bash-completion/completions/{}",
    "zsh": "zsh/site-functions/_{}",
    "fish": "fish/vendor_completions.d/{}.fish",
}


class Option(typing.NamedTuple):
    """An option: its words, such as `-h` and `--help`, the name of its value, the values that it can have, and what it does."""

    words: list
    value: str
    choices: list
    about: str


def options(it):
    """The options that a command's help has."""
    for term, about in it.sections.get("Options", []):
        choices = re.search(r" \[possible values: (.*?)\]", about)
        value = re.search(r"<(.*)>", term)
        said = about.replace(choices[0], "") if choices else about
        yield Option(re.findall(r"-[-\w]+", term), value[1] if value else "", choices[1].split(", ") if choices else [], said)


def quoted(text):
    """A text as a word of bash and zsh."""
    return "'" + text.replace("'", "'\\''") + "'"


def bash(name, of_commands):
    cases = ""
    for term, it in of_commands.items():
        cases += f"  {term}) words='{' '.join(word for option in options(it) for word in option.words)}' ;;\n"
    return f"""_{name}() {{
  local word=${{COMP_WORDS[COMP_CWORD]}} words=
  case ${{COMP_WORDS[1]-}} in
{cases}  esac
  if [[ $COMP_CWORD -eq 1 ]]; then
    mapfile -t COMPREPLY < <(compgen -W '{' '.join(of_commands)}' -- "$word")
  elif [[ $word == -* ]]; then
    mapfile -t COMPREPLY < <(compgen -W "$words" -- "$word")
  else
    mapfile -t COMPREPLY < <(compgen -f -- "$word")
  fi
}}
complete -o filenames -F _{name} {name}
"""


def zsh_specs(option):
    """The specifications of an option for `_arguments`, one for each of its words."""
    about = re.sub(r"([][:\\])", r"\\\1", option.about)
    value = f":{option.value}:({' '.join(option.choices)})" if option.choices else f":{option.value}:_files" if option.value else ""
    return [quoted(f"{word}{'=' * bool(value)}[{about}]{value}") for word in option.words]


def zsh(name, of_commands):
    described = "".join(f"      {quoted(term + ':' + it.about)}\n" for term, it in of_commands.items())
    cases = ""
    for term, it in of_commands.items():
        specs = [spec for option in options(it) for spec in zsh_specs(option)] + ["'*:file:_files'"]
        cases += f"    {term})\n      _arguments \\\n        " + " \\\n        ".join(specs) + " ;;\n"
    return f"""#compdef {name}

_{name}() {{
  if (( CURRENT == 2 )); then
    local -a commands=(
{described}    )
    _describe command commands
    return
  fi
  local command=$words[2]
  shift words
  (( CURRENT -= 1 ))
  case $command in
{cases}  esac
}}

_{name} "$@"
"""


def fish_word(text):
    """A text as a word of fish."""
    return "'" + text.replace("\\", "\\\\").replace("'", "\\'") + "'"


def fish(name, of_commands):
    lines = []
    for term, it in of_commands.items():
        lines.append(f"complete -c {name} -n __fish_use_subcommand -f -a {term} -d {fish_word(it.about)}")
        for option in options(it):
            words = " ".join(f"-l {word[2:]}" if word.startswith("--") else f"-s {word[1:]}" for word in option.words)
            # A value that isn't one of some may be a file.
            value = f" -x -a {fish_word(' '.join(option.choices))}" if option.choices else " -r" if option.value else ""
            lines.append(f"complete -c {name} -n '__fish_seen_subcommand_from {term}' {words}{value} -d {fish_word(option.about)}")
    return "\n".join(lines) + "\n"


def files(name, of_commands):
    """The completions of a program, each with its path."""
    return [(PATHS[it.__name__].format(name), it(name, of_commands)) for it in (bash, zsh, fish)]
