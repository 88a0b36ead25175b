# bash completion for uringwalk                            -*- shell-script -*-

# Prints what may follow an option as its value: words, or the name of a function that completes them.
_uringwalk_values() {
    case $1 in
        --form) echo "1 2" ;;
        --kind | --allow)
            echo "failed short severed canceled timed-out expired not-found too-late overflow busy waits lost-wake-up" \
                "not-taken not-reaped unfinished buffer-in-use unordered shared-position fsync-early taken-short" \
                "no-such-slot cut-off went-on no-effect slot-in-use closed-early closed-while-held several" \
                "left-running same-user-data not-durable refused-flags stuck closed-twice fsync-retried"
            ;;
    esac
}

# Prints the options of a word.
_uringwalk_options() {
    case $1 in
        trace) echo "--form --eager" ;;
        log | timeline) echo "--from --to" ;;
        explain) echo "--kind --allow --json --sarif" ;;
        explore)
            echo "--kind --allow --until --runs --seed --first --events --out --unlocked --sound-device --late --threads --json"
            ;;
        live) echo "--turns --kernel --trace" ;;
        serve) echo "--port --turns --kernel --clients" ;;
    esac
}

# Prints the files that a word takes, in their order: a script, or any file. "explain" takes any number of files.
_uringwalk_operands() {
    case $1 in
        walk | check | explore | live | serve) echo "script" ;;
        trace) echo "script file" ;;
        migrate | schedule) echo "script file file" ;;
        replay | log) echo "file" ;;
        timeline) echo "file file" ;;
    esac
}

# Completes a file: a script's name ends in .json, but where no such name fits any file does.
_uringwalk_file() {
    compopt -o filenames
    if [[ $1 == script ]]; then
        mapfile -t COMPREPLY < <(compgen -f -X '!*.json' -- "$2"; compgen -d -- "$2")
        [[ ${#COMPREPLY[@]} -gt 0 ]] && return
    fi
    mapfile -t COMPREPLY < <(compgen -f -- "$2")
}

# Completes what follows a word of the program; the arguments are the word, what is typed of the next one, and how
# many files there are before it.
_uringwalk_after() {
    local operands
    if [[ $1 == help ]]; then
        [[ $3 -gt 0 ]] || mapfile -t COMPREPLY < <(compgen -W "$_uringwalk_words" -- "$2")
    elif [[ $2 == -* ]]; then
        mapfile -t COMPREPLY < <(compgen -W "$(_uringwalk_options "$1") --help" -- "$2")
    elif [[ $1 == explain ]]; then
        _uringwalk_file file "$2"
    else
        read -ra operands <<<"$(_uringwalk_operands "$1")"
        [[ $3 -ge ${#operands[@]} ]] || _uringwalk_file "${operands[$3]}" "$2"
    fi
}

_uringwalk_words="walk check trace migrate replay log explain timeline explore schedule live serve dap help"

_uringwalk() {
    local current=$2 word="" option="" files=0 typed=("${COMP_WORDS[@]:1:COMP_CWORD-1}") it
    COMPREPLY=()
    [[ $current == "=" ]] && current=""
    for it in "${typed[@]}"; do
        case $it in
            "=") ;;
            --form | --kind | --allow | --from | --to | --turns | --kernel | --port | --clients | --trace | \
                --until | --runs | --seed | --first | --events | --out | --threads) option=$it ;;
            -*) option="" ;;
            *)
                if [[ -n $option ]]; then
                    option=""
                elif [[ -z $word ]]; then
                    word=$it
                else
                    files=$((files + 1))
                fi
                ;;
        esac
    done
    if [[ $option == --trace || $option == --out ]]; then
        _uringwalk_file file "$current"
    elif [[ -n $option ]]; then
        mapfile -t COMPREPLY < <(compgen -W "$(_uringwalk_values "$option")" -- "$current")
    elif [[ -n $word ]]; then
        _uringwalk_after "$word" "$current" "$files"
    else
        mapfile -t COMPREPLY < <(compgen -W "$_uringwalk_words --help --version" -- "$current")
    fi
} && complete -F _uringwalk uringwalk

# Completes the script that uringwalk-real takes.
_uringwalk_real() {
    COMPREPLY=()
    if [[ $2 == -* ]]; then
        mapfile -t COMPREPLY < <(compgen -W "--help" -- "$2")
    elif [[ $COMP_CWORD -eq 1 ]]; then
        _uringwalk_file script "$2"
    fi
} && complete -F _uringwalk_real uringwalk-real
