# Completes the words of cgtx in bash.
_cgtx() {
    local word=${COMP_WORDS[COMP_CWORD]} before=${COMP_WORDS[COMP_CWORD - 1]} options given=0 it
    COMPREPLY=()
    if [ "$COMP_CWORD" -eq 1 ]; then
        mapfile -t COMPREPLY < <(compgen -W 'replay show tree diff plan run check import --verbose --help --version' -- "$word")
        return
    fi
    case ${COMP_WORDS[1]} in
    replay) options='--echo --explain --json --history --strict --verbose --quiet --help' ;;
    show) options='--json --verbose --quiet --help' ;;
    tree) options='--depth --json --verbose --quiet --help' ;;
    diff) options='--verbose --quiet --help' ;;
    plan) options='--json --shell --root --verbose --quiet --help' ;;
    run) options='--workers --tries --history --explain --json --watch --strict --verbose --quiet --help' ;;
    check) options='--as --json --verbose --quiet --help' ;;
    import) options='--online --strict --quiet --help' ;;
    *) return ;;
    esac
    case $before in
    --depth|--root|--workers|--tries|--watch|--as|--online) return ;;
    esac
    for it in "${COMP_WORDS[@]:2:COMP_CWORD-2}"; do
        [[ $it == -?* ]] || given=$((given + 1))
    done
    if [[ $word == -* ]]; then
        mapfile -t COMPREPLY < <(compgen -W "$options" -- "$word")
    elif [ "${COMP_WORDS[1]}" = show ] && [ "$given" -eq 2 ]; then
        mapfile -t COMPREPLY < <(compgen -W 'cgroup.procs cgroup.controllers cgroup.subtree_control cgroup.events cgroup.freeze cpuset.cpus cpuset.cpus.effective cgroup.max.descendants cgroup.max.depth' -- "$word")
    else
        mapfile -t COMPREPLY < <(compgen -f -- "$word")
    fi
}
complete -o filenames -F _cgtx cgtx
