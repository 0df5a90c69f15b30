# Completion of the commands of snapper for bash: `. snapper.bash` in the folder of the clone, or a copy of it in
# ~/.local/share/bash-completion/completions/snapper
_snapper() {
    local word=${COMP_WORDS[COMP_CWORD]} words=""
    if [ "$COMP_CWORD" -eq 1 ]; then
        words="run recover compact follow migrate audit gen bench --version --help"
    else
        case ${COMP_WORDS[1]}:${COMP_WORDS[COMP_CWORD - 1]}:$COMP_CWORD in
            run:run:2) words="--seed --workers" ;;
            run:--workers:3) words="1 2 3 4 5 6 7 8" ;;
            bench:*:4) words="--workers" ;;
            bench:--workers:5) words="1 2 3 4 5 6 7 8" ;;
        esac
    fi
    mapfile -t COMPREPLY < <(compgen -W "$words" -- "$word")
}
complete -o default -F _snapper snapper
