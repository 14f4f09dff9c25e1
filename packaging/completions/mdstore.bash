# Completions of mdstore for bash. They need no other file. tests/words compares them with the help that the program prints.

_mdstore() {
    local word=${COMP_WORDS[COMP_CWORD]} before=${COMP_WORDS[COMP_CWORD - 1]} command=${COMP_WORDS[1]} options=
    local commands="check init migrate import substitute holidays streams day versions periods gaps finals missing readings export serve explain help"
    COMPREPLY=()
    if ((COMP_CWORD == 1)); then
        if [[ $word == -* ]]; then
            mapfile -t COMPREPLY < <(compgen -W "-h --help -V --version" -- "$word")
        else
            mapfile -t COMPREPLY < <(compgen -W "$commands" -- "$word")
        fi
        return
    fi
    # bash splits `--kind=nem12` at the equals sign.
    if [[ $word == = ]]; then
        word=
    elif [[ $before == = ]]; then
        before=${COMP_WORDS[COMP_CWORD - 2]}
    fi
    case $before in
        --store)
            compopt -o filenames 2> /dev/null
            mapfile -t COMPREPLY < <(compgen -f -- "$word")
            return
            ;;
        --kind)
            mapfile -t COMPREPLY < <(compgen -W "nem12 nem13" -- "$word")
            return
            ;;
        --port | --count | --since)
            return
            ;;
    esac
    if [[ $word == -* ]]; then
        case $command in
            check) options="--kind --why" ;;
            init) options="--store --sums --why" ;;
            import) options="--store --kind --why" ;;
            missing) options="--store --since --why" ;;
            serve) options="--store --port --count --log --why" ;;
            explain) ;;
            help) return ;;
            *) options="--store --why" ;;
        esac
        mapfile -t COMPREPLY < <(compgen -W "$options -h --help" -- "$word")
        return
    fi
    case $command in
        check | import | substitute | holidays)
            compopt -o filenames 2> /dev/null
            mapfile -t COMPREPLY < <(compgen -f -- "$word")
            ;;
        help)
            mapfile -t COMPREPLY < <(compgen -W "$commands" -- "$word")
            ;;
    esac
}

complete -F _mdstore mdstore
