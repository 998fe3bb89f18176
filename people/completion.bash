# Completion of the command morgazell for bash.
_morgazell() {
    local word=${COMP_WORDS[COMP_CWORD]} before=${COMP_WORDS[COMP_CWORD - 1]} options=
    if [ "$COMP_CWORD" -eq 1 ]; then
        mapfile -t COMPREPLY < <(compgen -W "judge inspect margins picture vcd text capture blank cells open-rows export import
            schedule play month --version --help" -- "$word")
        return
    fi
    case ${COMP_WORDS[1]} in
    judge) options="--json --junit --recording -j --jobs" ;;
    inspect) options="-o --output --part --pdf" ;;
    margins) options="--parts" ;;
    vcd) options="--gtkwave -o --output" ;;
    picture | text | capture | blank | cells | export) options="-o --output" ;;
    open-rows) options="--bank --event --judged" ;;
    import) options="--settings --part --edition -o --output" ;;
    schedule) options="--settings --part --policy -o --output" ;;
    play) options="--first --window --zeros --writes -o --output" ;;
    esac
    case $before in
    --policy) mapfile -t COMPREPLY < <(compgen -W "open closed" -- "$word") ;;
    --edition) mapfile -t COMPREPLY < <(compgen -W "0 1" -- "$word") ;;
    *)
        if [ "${word#-}" != "$word" ]; then
            mapfile -t COMPREPLY < <(compgen -W "$options -h --help" -- "$word")
        else
            mapfile -t COMPREPLY < <(compgen -f -- "$word")
        fi
        ;;
    esac
}
complete -o filenames -F _morgazell morgazell
