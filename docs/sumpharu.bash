# Completion of sumpharu's arguments for bash: source this file. 'sumpharu-tools make-manual' writes it.
_sumpharu() {
    local word=${COMP_WORDS[COMP_CWORD]}
    local -A options=(
        [plan]='--goals --skip-hard-goal-check --excluded-topics --trace'
        [apply]='--goals --skip-hard-goal-check --excluded-topics'
        [check]='--goals --skip-hard-goal-check --excluded-topics'
        [gen]='--brokers --partitions --goals --skip-hard-goal-check --file'
        [session]='--movers --planners --review'
        [serve]='--listen --links --forever --movers --planners --review --page'
    )
    if [ "$COMP_CWORD" -eq 1 ]; then
        COMPREPLY=($(compgen -W "plan apply check gen session serve help --help --version" -- "$word"))
        return
    fi
    if [ "${COMP_WORDS[1]}" = help ]; then
        [ "$COMP_CWORD" -ne 2 ] || COMPREPLY=($(compgen -W "${!options[*]}" -- "$word"))
        return
    fi
    if [ -z "${options[${COMP_WORDS[1]:-none}]+known}" ]; then
        COMPREPLY=()
        return
    fi
    case ${COMP_WORDS[COMP_CWORD - 1]} in
    --brokers | --excluded-topics | --goals | --links | --listen | --movers | --partitions | --planners)
        COMPREPLY=()
        return
        ;;
    esac
    case $word in
    -*) COMPREPLY=($(compgen -W "${options[${COMP_WORDS[1]:-none}]} --help" -- "$word")) ;;
    *) mapfile -t COMPREPLY < <(compgen -f -- "$word") ;;
    esac
}
complete -o filenames -F _sumpharu sumpharu ./sumpharu
