# Completion of m4r's options and files in bash. `tests/program/completions` compares the options with `m4r --help`.

# Offers the files that begin with a word.
_m4r_files() {
    compopt -o filenames 2> /dev/null
    mapfile -t COMPREPLY < <(compgen -f -- "$1")
}

# Offers the frozen files that begin with a word, and folders; if there are none, all files.
_m4r_frozen_files() {
    compopt -o filenames 2> /dev/null
    mapfile -t COMPREPLY < <(compgen -f -X '!*.m4f' -- "$1"; compgen -d -- "$1")
    [ "${#COMPREPLY[@]}" -gt 0 ] || _m4r_files "$1"
}

_m4r() {
    local word=${COMP_WORDS[COMP_CWORD]} before=${COMP_WORDS[COMP_CWORD - 1]} i
    # bash makes three words of --canon=FILE: the option, the sign and the file.
    if [ "$word" = = ]; then
        word=
    elif [ "$before" = = ]; then
        before=${COMP_WORDS[COMP_CWORD - 2]}
    fi
    COMPREPLY=()
    for ((i = 1; i < COMP_CWORD; i++)); do
        if [ "${COMP_WORDS[i]}" = -- ]; then
            _m4r_files "$word"
            return
        fi
    done
    case $before in
        -L | --nesting-limit | --expansions) return ;;
        -R | --reload-state | --canon | --inspect)
            _m4r_frozen_files "$word"
            return
            ;;
    esac
    case $word in
        -*)
            mapfile -t COMPREPLY < <(compgen -W '-F --freeze-state= -R --reload-state= -L --nesting-limit=
                --expansions= -P --prefix-builtins --canon= --inspect= --help' -- "$word")
            if [[ ${COMPREPLY[0]-} == *= ]]; then
                compopt -o nospace 2> /dev/null
            fi
            ;;
        *)
            _m4r_files "$word"
            ;;
    esac
}

complete -F _m4r m4r
