# Made by tools/manual from what polis --help shows.
_polis() {
    local word=${COMP_WORDS[COMP_CWORD]} first=1 place kinds="" options="" kind places
    local commands="run shuffle survey compile image demo check explain equiv bound lint draw replay migrate losses chart cover watch wave"
    [ "${COMP_WORDS[1]}" != --unproved ] || [ "$COMP_CWORD" -eq 1 ] || first=2
    place=$((COMP_CWORD - first))
    if [ "$place" -eq 0 ]; then
        options="$commands help --help -h --version"
        [ "$first" -eq 2 ] || options+=" --unproved"
        mapfile -t COMPREPLY < <(compgen -W "$options" -- "$word")
        return
    fi
    case ${COMP_WORDS[first]} in
        run) kinds="net trc stem" options="--workers --limit --image" ;;
        shuffle) kinds="net trc stem number" options="--order --limit" ;;
        survey) kinds="net trc number" options="--seed --order --limit --workers --watch" ;;
        compile) kinds="net stem" options="" ;;
        image) kinds="net stem" options="" ;;
        demo) kinds="number" options="" ;;
        check) kinds="net" options="" ;;
        explain) kinds="net trc jnl" options="" ;;
        equiv) kinds="net net" options="" ;;
        bound) kinds="net number number number number" options="" ;;
        lint) kinds="net" options="" ;;
        draw) kinds="net stem" options="" ;;
        replay) kinds="net trc jnl" options="" ;;
        migrate) kinds="net trc jnl stem" options="" ;;
        losses) kinds="net trc jnl" options="" ;;
        chart) kinds="net trc jnl" options="--from --to" ;;
        cover) kinds="net trc jnl" options="" ;;
        watch) kinds="net trc jnl net" options="" ;;
        wave) kinds="net trc jnl stem" options="" ;;
        help | --help | -h) kinds="command" ;;
    esac
    read -r -a places <<< "$kinds"
    kind=${places[place - 1]:-}
    case ${COMP_WORDS[COMP_CWORD - 1]} in
        --workers) kind=worker ;;
        --limit) kind=number ;;
        --image) kind=img ;;
        --order) kind=order ;;
        --seed) kind=number ;;
        --watch) kind=net ;;
        --from) kind=number ;;
        --to) kind=number ;;
    esac
    [ "$place" -ne 1 ] || [ "${word:0:1}" != - ] || kind="" options=--help
    case $kind in
        "") mapfile -t COMPREPLY < <(compgen -W "$options" -- "$word") ;;
        command) mapfile -t COMPREPLY < <(compgen -W "$commands" -- "$word") ;;
        order) mapfile -t COMPREPLY < <(compgen -W "mixed free settled scheduled" -- "$word") ;;
        worker) mapfile -t COMPREPLY < <(compgen -W "1 2 3 4 5 6 7 8" -- "$word") ;;
        number) COMPREPLY=() ;;
        stem) mapfile -t COMPREPLY < <(compgen -f -- "$word") ;;
        *) mapfile -t COMPREPLY < <(compgen -f -X "!*.$kind" -- "$word"; compgen -d -- "$word") ;;
    esac
}
complete -o filenames -F _polis polis ./polis
