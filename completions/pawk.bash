# Completion of pawk's command line for bash. `make install` puts it where bash-completion looks; to try it: . pawk.bash

# Answers with the words of $1, or with files where there is none, that begin with the current word.
_pawk_answer() {
    if [[ $# -gt 0 ]]; then
        mapfile -t COMPREPLY < <(compgen -W "$1" -- "$word")
    else
        compopt -o filenames
        mapfile -t COMPREPLY < <(compgen -f -- "$word")
    fi
    # What readline replaces begins after an = or a colon.
    COMPREPLY=("${COMPREPLY[@]#"${word%"${COMP_WORDS[COMP_CWORD]#=}"}"}")
}

_pawk() {
    local options='-F -v -f -j -c -w --whole -s -m --why --explain --check --show --globals --statistics --map --shard --before --line --count --merge --join --show-table --shards -h --help -V --version --'
    local words=() word rest line=$COMP_LINE i files='' ended='' operands=0

    # bash parts words at = and colons, too: they are joined again.
    for ((i = 0; i <= COMP_CWORD; i++)); do
        rest=${line#"${line%%[![:space:]]*}"}
        if [[ $i -eq 0 || $rest != "$line" || ! $rest ]]; then
            words+=("${COMP_WORDS[i]}")
        else
            words[${#words[@]} - 1]+=${COMP_WORDS[i]}
        fi
        line=${rest#"${COMP_WORDS[i]}"}
    done
    word=${words[${#words[@]} - 1]}

    # What comes before the word: options, values, a program, files.
    for ((i = 1; i < ${#words[@]} - 1; i++)); do
        if [[ $ended ]]; then
            operands=$((operands + 1))
            continue
        fi
        case ${words[i]} in
        --) ended=yes ;;
        -f)
            files=yes
            i=$((i + 1))
            ;;
        -f* | --merge | --join | --show-table) files=yes ;;
        --shards)
            files=yes
            i=$((i + 1))
            ;;
        -[Fvjcswm] | --shard | --before) i=$((i + 1)) ;;
        - | [!-]*) operands=$((operands + 1)) ;;
        esac
    done

    if [[ $i -ge ${#words[@]} ]]; then
        # The word is the value of an option.
        case ${words[${#words[@]} - 2]} in
        -f) _pawk_answer ;;
        -j) _pawk_answer '1 2 4 8 16 32 64' ;;
        -c) _pawk_answer '65536 1048576 16777216 1073741824' ;;
        -s) _pawk_answer '10000000 1000000000 1000000000000' ;;
        -v)
            compopt -o nospace
            _pawk_answer 'FS= OFS= ORS= RS= SUBSEP='
            ;;
        esac
    elif [[ ! $ended && $word == --explain=* ]]; then
        _pawk_answer '--explain=always --explain=never --explain=auto'
    elif [[ ! $ended && $word == -* ]]; then
        _pawk_answer "$options"
    elif [[ $files || $operands -gt 0 ]]; then
        # The first operand is the program, but not beside -f.
        _pawk_answer
    fi
}

complete -F _pawk pawk
