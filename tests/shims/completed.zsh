# Prints what zsh completes at the end of some words, for tests/words.
#
#     zsh -f tests/shims/completed.zsh FOLDER 'mdstore import --' ..
#
# FOLDER has the completions. Each candidate is a line, and after the candidates for some words comes the line `end`. The words are typed in the
# terminal of a second zsh.
zmodload zsh/zpty || exit 2
setup=$(mktemp)
cat > $setup <<'END'
PROMPT= RPROMPT=
autoload -U compinit && compinit -D -u
compadd() {
    local -a found
    # With -A, -D or -O nothing is added. Another function asks which candidates fit.
    if [[ ${@[1,(i)(-|--)]} == *-[ADO]\ * ]]; then
        builtin compadd "$@"
        return $?
    fi
    builtin compadd -A found "$@"
    (( $#found )) && print -rl -- candidate:${^found}
    builtin compadd "$@"
}
show() {
    zle complete-word
    print -r -- that-is-all
    zle kill-whole-line
}
zle -N show
bindkey '^I' show
print -r -- is-ready
END
zpty typed zsh -f -i
zpty -w typed "fpath=(${(q)1} \$fpath); source $setup"
while zpty -r typed line; do
    [[ $line == is-ready* ]] && break
done
for words in "${@[2,-1]}"; do
    zpty -n -w typed "$words"$'\t'
    while zpty -r typed line; do
        line=${${line%$'\n'}%$'\r'}
        [[ $line == *that-is-all* ]] && break
        [[ $line == *candidate:* ]] && print -r -- ${line##*candidate:}
    done
    print -r -- end
done
zpty -d typed
rm $setup
