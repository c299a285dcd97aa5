"""Completions of the program's words, for bash, zsh and fish."""
import re

# What values that are paths are called
PATHS = re.compile(r"PATH|FILE|FOLDER|CAPTURE|SCRIPT|REPORT|NAMES|SETTINGS")
BASH = """# The words of {version}, for bash.
_smq() {{
  local offers=
  COMPREPLY=()
  case $COMP_CWORD:${{COMP_WORDS[1]}}:${{COMP_WORDS[COMP_CWORD - 1]}} in
    *:*:[\\<\\>]*) ;;
{cases}
  esac
  COMPREPLY=($(compgen -W "$offers" -- "${{COMP_WORDS[COMP_CWORD]}}"))
}}
# (where none of the words fits, files do)
complete -o bashdefault -o default -F _smq smq
"""
ZSH = """#compdef smq
# The words of {version}, for zsh.
local -a offers
case $CURRENT:$words[2]:$words[CURRENT-1] in
{cases}
esac
_describe word offers || _files
"""


def of_bash(program, version):
    cases = (f"    {where}) offers='{' '.join(it for it, _ in offers)}' ;;" for where, offers in places(program, 1))
    return BASH.format(version=version, cases="\n".join(cases))


def of_zsh(program, version):
    cases = (f"  {where}) offers=({' '.join(quoted(':'.join(filter(None, it))) for it in offers)}) ;;" for where, offers in places(program, 2))
    return ZSH.format(version=version, cases="\n".join(cases))


def of_fish(program, version):
    first = "__fish_is_nth_token 1"
    found = [f"# The words of {version}, for fish.", "complete -c smq -f"]
    found += [f"complete -c smq -n '{first}' -a {it.name} -d {quoted(it.about)}" for it in program.commands]
    found += options_of_fish(first, program)
    for it in program.commands:
        where = f"__fish_seen_subcommand_from {it.name}"
        found += [f"complete -c smq -n '{where}'{offers_of_fish(word)} -d {quoted(word.about)}" for word in it.arguments]
        found += options_of_fish(where, it)
    return "".join(f"{it}\n" for it in found)


def options_of_fish(where, command):
    """Yields a line for each option of a command."""
    for it in command.options:
        flags = " ".join(f"-l {flag[2:]}" if flag.startswith("--") else f"-s {flag[1:]}" for flag in it.flags)
        yield f"complete -c smq -n '{where}' {flags}{' -r' if it.value else ''}{offers_of_fish(it)} -d {quoted(it.about)}"


def offers_of_fish(word):
    return f" -a '{' '.join(word.offers)}'" if word.offers else " -F" if word.value and PATHS.search(word.value) else ""


def places(program, first):
    """Yields patterns of `POSITION:COMMAND:WORD BEFORE`, where commands stand at position `first`, each with the words that are offered there,
    and what is said of them."""
    yield f"{first}:*", [(it.name, it.about) for it in program.commands] + flags_of(program)
    for it in program.commands:
        for word in it.options:
            if word.value:
                yield "|".join(f"*:{it.name}:{flag}" for flag in word.flags), [(offer, "") for offer in word.offers]
        yield f"*:{it.name}:*", [(offer, "") for word in it.arguments for offer in word.offers] + flags_of(it)


def flags_of(command):
    return [(flag, it.about) for it in command.options for flag in it.flags]


def quoted(text):
    return "'" + text.replace("'", "'\\''") + "'"
