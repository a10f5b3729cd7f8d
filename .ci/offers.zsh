# zsh -f offers.zsh FOLDER LINE: what zsh offers behind a line, by the completions in a folder
zmodload zsh/zpty zsh/datetime
typeset offered=$(mktemp)
cat >$offered.rc <<END
PS1= PS2=
unset zle_bracketed_paste
unsetopt prompt_cr prompt_sp
fpath=($1 \$fpath)
autoload -Uz compinit
compinit -D -u
compadd() {
	local -a hits
	if (( \${@[(I)-[OAD]*]} )); then builtin compadd "\$@"; return; fi
	builtin compadd -A hits "\$@"
	print -rl -- \$hits >>$offered
	builtin compadd "\$@"
}
ended() { print ended >>$offered.end }
comppostfuncs=(ended)
zle-line-init() { print ready >>$offered.ready }
zle -N zle-line-init
END
# waits until a file is there, and reads away what the shell writes
await() {
	float until=$((EPOCHREALTIME + 60))
	while [[ ! -e $1 ]] && (( EPOCHREALTIME < until )); do
		zpty -rt shell line
		sleep 0.05
	done
}
zpty -b shell zsh -f -i
zpty -w shell "source $offered.rc"
await $offered.ready
zpty -w -n shell "$2"$'\t'
await $offered.end
zpty -d shell
sed '/^$/d' $offered | sort -u
rm -f $offered $offered.*
