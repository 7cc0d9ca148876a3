"""Shell completions for bash, zsh and fish, made of a help."""
import re

MADE = "# Made by tools/share_files from the program's help."


def function_of(name):
    return "_" + name.replace("-", "_")


def flags_of(page):
    return [flag for entry in page.options for flag in entry.flags]


# bash: one function for each name on the command line. Cargo's own completion passes a command's arguments on without the
# name of the command, so options are offered at every position.
def bash_cases(page, indent):
    """The cases of the current argument: an option, or the value of the option before it."""
    lines = [indent + "*,-*) words=$options ;;"]
    for entry in page.options:
        if entry.value:
            then = "words='%s'" % " ".join(entry.values) if entry.values else "files=yes" if entry.is_path else ":"
            lines.append("%s%s) %s ;;" % (indent, "|".join(it + ",*" for it in entry.flags), then))
    lines.append(indent + "*) words=$options ;;")
    return ["%slocal options='%s'" % (indent[4:], " ".join(flags_of(page))), indent[4:] + "case $before,$current in"] + lines


BASH = """{made}
{function}() {{
    local current=${{COMP_WORDS[COMP_CWORD]}} before=${{COMP_WORDS[COMP_CWORD-1]}} words='' files=''
    # bash parts `--option=value` at the sign
    if [ "$current" = = ]; then
        current=
    elif [ "$before" = = ] && [ "$COMP_CWORD" -gt 1 ]; then
        before=${{COMP_WORDS[COMP_CWORD-2]}}
    fi
{cases}
    COMPREPLY=()
    if [ -n "$files" ]; then
        compopt -o filenames
        mapfile -t COMPREPLY < <(compgen -f -- "$current")
    else
        mapfile -t COMPREPLY < <(compgen -W "$words" -- "$current")
    fi
}}
complete -F {function} {name}
"""


# Cargo's own completion passes a command's arguments to this function from bash-completion 2.12 on. Before, it completes
# options from variables of this form alone, and no values: so `cargo` is completed by a function of our own there.
BASH_OLD = """if [ "${{BASH_COMPLETION_VERSINFO[0]:-2}}" -eq 2 ] && [ "${{BASH_COMPLETION_VERSINFO[1]:-12}}" -lt 12 ]; then
    # cargo's own completion reads the options of a command here
    # shellcheck disable=SC2034
    opt__{variable}='{options}'
    _cargo_with_edit() {{
        case ${{COMP_WORDS[1]}} in
            upgrade | set-version) "_cargo_${{COMP_WORDS[1]/-/_}}" ;;
            *) ! declare -F _cargo > /dev/null || _cargo "$@" ;;
        esac
    }}
    complete -F _cargo_with_edit cargo
fi
"""


def bash_of_command(name, command, page):
    cases = bash_cases(page, " " * 8) + ["    esac"]
    cases += ['    [ "$COMP_CWORD" -gt 1 ] || words="%s $words"' % command]
    old = BASH_OLD.format(variable=command.replace("-", "_"), options=" ".join(flags_of(page)))
    return BASH.format(made=MADE, function=function_of(name), name=name, cases="\n".join(cases)) + old


def bash_of_program(name, top, commands):
    first = " ".join([it.name for it in top.commands] + flags_of(top))
    cases = ['    if [ "$COMP_CWORD" -eq 1 ]; then', "        words='%s'" % first, "    else", "        case ${COMP_WORDS[1]} in"]
    for command, page in commands.items():
        cases += ["            %s)" % command] + bash_cases(page, " " * 20) + [" " * 16 + "esac ;;"]
    cases += ["        esac", "    fi"]
    return BASH.format(made=MADE, function=function_of(name), name=name, cases="\n".join(cases))


# zsh: `_arguments` with one line for each option
def zsh_text(text):
    """A text within quotes, where brackets and colons part a line of `_arguments`."""
    return re.sub(r"([\[\]:\\])", r"\\\1", text).replace("'", "'\\''")


def zsh_lines(page):
    lines = []
    for entry in page.options:
        value = ""
        if entry.value:
            action = "(%s)" % " ".join(entry.values) if entry.values else "_files" if entry.is_path else ""
            value = "%s%s:%s" % ("::" if entry.may_lack_value else ":", zsh_text(entry.value), action)
        for flag in entry.flags:
            sign = "" if not entry.value else "=" if flag.startswith("--") else "+"
            front = "*" if entry.is_repeated else "(%s)" % " ".join(entry.flags)
            lines.append("'%s%s%s[%s]%s'" % (front, flag, sign, zsh_text(entry.text), value))
    for entry in (it for heading, entries, _ in page.sections if heading == "Arguments" for it in entries):
        lines.append("'::%s:'" % zsh_text(entry.name.strip("<>[]")))
    return lines


def zsh_arguments(page, indent):
    lines = [indent + "_arguments -s \\"] + ["%s    %s \\" % (indent, it) for it in zsh_lines(page)]
    lines[-1] = lines[-1][:-2]
    return lines


def zsh_of_command(name, command, page):
    lines = ["#compdef " + name, MADE]
    lines += ["# by its own name it takes the command's name first; cargo's completion begins at that name"]
    lines += ["if [[ ${words[1]:t} == %s ]]; then" % name]
    lines += ["    if (( CURRENT == 2 )); then compadd %s; return; fi" % command, "    shift words; (( CURRENT-- ))", "fi"]
    return "\n".join(lines + zsh_arguments(page, "")) + "\n"


def zsh_of_program(name, top, commands):
    named = " ".join("'%s:%s'" % (it.name, zsh_text(it.text)) for it in top.commands)
    lines = ["#compdef " + name, MADE, "if (( CURRENT == 2 )); then", "    local -a commands=(%s)" % named]
    lines += ["    _describe command commands", "    return", "fi", "shift words; (( CURRENT-- ))", "case $words[1] in"]
    for command, page in commands.items():
        lines += ["    %s)" % command] + zsh_arguments(page, " " * 8) + ["        ;;"]
    return "\n".join(lines + ["esac"]) + "\n"


# fish: one line for each option
def fish_text(text):
    return "'%s'" % text.replace("\\", "\\\\").replace("'", "\\'")


def fish_lines(name, page, where):
    lines = []
    for entry in page.options:
        parts = ["complete -c %s%s" % (name, where)]
        parts += ["-%s %s" % ("l" if it.startswith("--") else "s", it.lstrip("-")) for it in entry.flags]
        if entry.value:
            # (-x: a value has to follow, and it is no file)
            parts += ["-r -F" if entry.is_path else "-f" if entry.may_lack_value else "-x"]
            parts += ["-a " + fish_text(" ".join(entry.values))] if entry.values else []
        lines.append(" ".join(parts + ["-d " + fish_text(entry.text)]))
    return lines


def fish_of_command(name, command, page):
    """By its own name it takes the command's name first."""
    lines = [MADE, "complete -c %s -f" % name, "complete -c %s -n __fish_is_first_arg -a %s -d %s" % (name, command, fish_text(page.about))]
    return "\n".join(lines + fish_lines(name, page, "")) + "\n"


def fish_of_program(name, top, commands):
    lines = [MADE, "complete -c %s -f" % name]
    lines += ["complete -c %s -n __fish_is_first_arg -a %s -d %s" % (name, it.name, fish_text(it.text)) for it in top.commands]
    for command, page in commands.items():
        lines += fish_lines(name, page, " -n '__fish_seen_subcommand_from %s'" % command)
    return "\n".join(lines) + "\n"


def fish_of_cargo(pages):
    """Completions of `cargo NAME`; cargo's own file passes nothing on, so these go where each shell reads them."""
    lines = [MADE]
    for command, page in pages.items():
        lines += fish_lines("cargo", page, " -n '__fish_seen_subcommand_from %s'" % command)
    return "\n".join(lines) + "\n"


def of_command(name, command, page):
    """The completions of a command that is installed by its own name."""
    return {
        "bash-completion/completions/" + name: bash_of_command(name, command, page),
        "zsh/site-functions/_" + name: zsh_of_command(name, command, page),
        "fish/vendor_completions.d/%s.fish" % name: fish_of_command(name, command, page),
    }


def of_program(name, top, commands):
    """The completions of the program, which takes a command's name first."""
    return {
        "bash-completion/completions/" + name: bash_of_program(name, top, commands),
        "zsh/site-functions/_" + name: zsh_of_program(name, top, commands),
        "fish/vendor_completions.d/%s.fish" % name: fish_of_program(name, top, commands),
    }
