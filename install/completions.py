"""The completions of three shells, of what helped.py reads."""
import helped

# Options that may be given again.
AGAIN = ("--include", "--include-dir", "--define", "--preinclude", "--warning", "--error")

# Endings of files.
SOURCE, BLOB, PLAN = (".dts",), (".dtb", ".dtbo"), (".plan",)
ANY = SOURCE + BLOB
# A folder is what ends in a slash.
NUMBER, FOLDER = ("number",), ("/",)

# What shells offer in the place of an operand or of an option's value, by its name, or that of one command by both: files with one of
# these endings, numbers of errors, or folders. In other places they offer nothing.
OFFERED = {
    "compile IN": SOURCE, "cpp IN": SOURCE, "fmt IN": SOURCE, "--preinclude": ANY, "check IN": ANY, "dtc input file": ANY,
    "IN": BLOB, "OUT": BLOB, "BASE": BLOB, "OVERLAY": BLOB, "BLOB": BLOB, "FIRST": BLOB, "SECOND": BLOB,
    "blob": BLOB, "file": BLOB, "overlay.dtbo": BLOB,
    "compile --depfile": (".d",), "fmt --out": SOURCE, "dtc --out": ANY, "fdtoverlay --input": BLOB, "fdtoverlay --output": BLOB,
    "DRIVERS": (".drivers",), "PLAN": PLAN, "SCHEDULE": (".schedule",), "LOG": (".log",),
    "ALIASES": (".alias",), "MODINFO": (".modinfo",), "IMAGE": ANY, "FILE": (".known",),
    "who NUMBER": (), "NUMBER": NUMBER, "DIR": FOLDER, "folder": FOLDER,
}


def anywhere(own):
    """What may stand before or behind any command, as far as that hasn't an option of the name."""
    words = words_of(own)
    return [it for it in helped.ANYWHERE if not set(it.words) & set(words)]


def options_of(command):
    return [*command.options, *(() if command.is_tool else anywhere(command.options))]


def words_of(options):
    """The options as they are typed."""
    return [word for it in options for word in it.words]


def offered(command, place):
    """What is offered in the place of an operand or of an option's value, by OFFERED."""
    names = [place.words[-1], place.value] if isinstance(place, helped.Option) else [place.name]
    found = [OFFERED[key] for name in names for key in (f"{command.name} {name}", name) if key in OFFERED]
    return found[0] if found else ()


def bash(program):
    cases = []
    for it in program.commands:
        kinds = ["|".join(offered(it, operand)) or "-" for operand in it.operands]
        rest = kinds[-1] if it.operands and it.operands[-1].repeated else ""
        taking = "".join(f" {word}:{'|'.join(offered(it, option))}" for option in it.options if option.value for word in option.words)
        options = " ".join(words_of(options_of(it)))
        cases.append(f'\t{it.name}) kinds="{" ".join(kinds)}" rest="{rest}" options="{options}" taking="{taking}" ;;')
    return BASH.format(
        commands=" ".join(it.name for it in program.commands),
        options=" ".join(words_of([*program.options, *anywhere([])])),
        cases="\n".join(cases),
        numbers=" ".join(number for number, _ in program.errors),
    )


BASH = """# Completions of dtman for bash.
_dtman() {{
	local word=${{COMP_WORDS[COMP_CWORD]}} command="" kinds="" rest="" options="" taking="" kind="" place=0 it
	COMPREPLY=()
	for it in "${{COMP_WORDS[@]:1:COMP_CWORD-1}}"; do
		# `--workers=4` comes as three words
		if [[ $it == -?* || $it == "=" ]]; then continue; fi
		if [[ -z $command ]]; then command=$it; else place=$((place + 1)); fi
	done
	case $command in
	"")
		mapfile -t COMPREPLY < <(compgen -W "{commands} {options}" -- "$word")
		return
		;;
{cases}
	*) return ;;
	esac
	if [[ $word == -?* ]]; then
		mapfile -t COMPREPLY < <(compgen -W "$options" -- "$word")
		return
	fi
	# The value of an option that takes one is of its own kind, and counts for no operand.
	for it in "${{COMP_WORDS[@]:1:COMP_CWORD-1}}"; do
		if [[ -n $it && $taking == *" $it:"* ]]; then place=$((place - 1)); fi
	done
	it=${{COMP_WORDS[COMP_CWORD - 1]}}
	if [[ $it == "=" ]]; then it=${{COMP_WORDS[COMP_CWORD - 2]}}; fi
	if [[ -n $it && $taking == *" $it:"* ]]; then
		kind=${{taking#*" $it:"}} kind=${{kind%% *}}
	else
		kinds=($kinds) kind=${{kinds[place]:-$rest}}
	fi
	case $kind in
	"" | -) ;;
	number) mapfile -t COMPREPLY < <(compgen -W "{numbers}" -- "$word") ;;
	*)
		compopt -o filenames 2>/dev/null
		mapfile -t COMPREPLY < <(compgen -d -- "$word"; compgen -f -- "$word" | grep -E "($kind)$" | sed 's/\\\\/&&/g')
		;;
	esac
}}
complete -F _dtman dtman
"""


def quoted(text):
    return text.replace("'", "'\\''")


def zsh_files(endings):
    """The action that offers files with these endings, within quotes. One ending alone in parentheses would be a qualifier."""
    pattern = endings[0] if len(endings) == 1 else f".({'|'.join(it[1:] for it in endings)})"
    return f"_files -g '\\''*{pattern}'\\''"


def zsh_action(kind):
    if kind in (NUMBER, ()):
        return "_dtman_numbers" if kind else " "
    return "_files -/" if kind == FOLDER else zsh_files(kind)


def zsh_option(option, kind=()):
    """An option with its value. Where it has two names either stands for the other, unless it may be given again."""
    names = option.words
    front = "*" if option.counted or names[-1] in AGAIN else f"({' '.join(names)})"
    told_of = f"[{quoted(option.about)}]"
    if option.value:
        names = [it + "=" if it.startswith("--") else it for it in names]
        told_of += f":{option.value}:{zsh_action(kind)}"
    if len(names) == 1:
        return f"'{front}{names[0]}{told_of}'"
    return f"'{front}'{{{','.join(names)}}}'{told_of}'"


def zsh(program):
    commands = "\n".join(f"\t\t'{it.name}:{quoted(it.about)}'" for it in program.commands)
    cases = []
    for it in program.commands:
        specs = [zsh_option(option, offered(it, option)) for option in options_of(it)]
        for operand in it.operands:
            front = "*:" if operand.repeated else "::" if operand.optional else ":"
            specs.append(f"'{front}{operand.name}:{zsh_action(offered(it, operand))}'")
        cases.append(f"\t{it.name})\n\t\t_arguments " + " \\\n\t\t\t".join(specs) + "\n\t\t;;")
    ending = [f"'(- :)'{{{','.join(it.words)}}}'[{it.about}]'" for it in program.options]
    numbers = "\n".join(f"\t\t'{number}:{name}'" for number, name in program.errors)
    return ZSH.format(options=" ".join([*ending, *map(zsh_option, anywhere([]))]), commands=commands, cases="\n".join(cases), numbers=numbers)


ZSH = """#compdef dtman
# Completions of dtman for zsh.

_dtman_numbers() {{
	local -a numbers=(
{numbers}
	)
	_describe -t numbers number numbers
}}

_dtman_commands() {{
	local -a commands=(
{commands}
	)
	_describe -t commands command commands
}}

_dtman() {{
	local curcontext=$curcontext state
	_arguments -C {options} ':command:_dtman_commands' '*::argument:->arguments'
	[[ $state == arguments ]] || return
	case $words[1] in
{cases}
	esac
}}

if [ "$funcstack[1]" = _dtman ]; then _dtman "$@"; else compdef _dtman dtman; fi
"""


FISH = """# Completions of dtman for fish.
function __dtman_takes --argument-names command word --description 'Whether a word is an option of this command that takes a value'
	switch $command
{cases}
	case '*'
		return 1
	end
end
function __dtman_words --description 'The words before the one that is typed, without options and their values'
	set -l command
	set -l value no
	for it in (commandline -opc)[2..]
		if test $value = yes
			set value no
		else if __dtman_takes "$command" $it
			set value yes
		else if not string match -q -- '-?*' $it
			set -q command[1]; or set command $it
			echo $it
		end
	end
end
function __dtman_wants --argument-names command place --description 'Whether this operand of this command is typed'
	set -l words (__dtman_words)
	test (count $words) = $place; and test $words[1] = $command
end
function __dtman_files --description 'Files with these endings, and folders'
	set -l typed (commandline -ct)
	set -l found $typed*/ $typed*$argv
	string join \\n -- $found
end
complete -c dtman -f
"""


def fish_action(kind):
    return "(__fish_complete_directories)" if kind == FOLDER else f"(__dtman_files {' '.join(kind)})"


def fish_option(option, seen, kind=()):
    names = "".join(f" -l {word[2:]}" if word.startswith("--") else f" -s {word[1:]}" for word in option.words)
    value = " -x" + (f" -a '{fish_action(kind)}'" if kind else "") if option.value else ""
    return f"complete -c dtman{seen}{names}{value} -d '{quoted(option.about)}'"


def fish_operand(program, command, place, operand):
    """What is offered in an operand's place: of one that may stand again, in each."""
    kind = offered(command, operand)
    wants = f"__fish_seen_subcommand_from {command.name}" if operand.repeated else f"__dtman_wants {command.name} {place}"
    if kind == NUMBER:
        return [f"complete -c dtman -n '{wants}' -a {number} -d {name}" for number, name in program.errors]
    return [f"complete -c dtman -n '{wants}' -a '{fish_action(kind)}'"] if kind else []


def fish(program):
    taking = {it.name: words_of(option for option in it.options if option.value) for it in program.commands}
    cases = "\n".join(f"\tcase {name}\n\t\tcontains -- $word {' '.join(words)}" for name, words in taking.items() if words)
    lines = [fish_option(it, " -n '__fish_use_subcommand'") for it in program.options]
    lines += [fish_option(it, "") for it in anywhere([])]
    for it in program.commands:
        lines.append(f"complete -c dtman -n '__fish_use_subcommand' -a {it.name} -d '{quoted(it.about)}'")
        lines += [fish_option(option, f" -n '__fish_seen_subcommand_from {it.name}'", offered(it, option)) for option in it.options]
        for place, operand in enumerate(it.operands, 1):
            lines += fish_operand(program, it, place, operand)
    return FISH.format(cases=cases) + "\n".join(lines) + "\n"
