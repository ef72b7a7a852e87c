# Completion of zla's command words for bash: `. tools/zla.bash` in the shell, or a line of ~/.bashrc.
_zla() {
    local word=${COMP_WORDS[COMP_CWORD]}
    if [ "$COMP_CWORD" -eq 1 ]; then
        mapfile -t COMPREPLY < <(compgen -W "solo run check locals journal audit build news thaw gen freeze" -- "$word")
    elif [[ ${COMP_WORDS[1]} =~ ^(solo|run|check|locals|journal)$ && $word == -* ]]; then
        mapfile -t COMPREPLY < <(compgen -W "--cache" -- "$word")
    fi
}
complete -o default -F _zla zla
