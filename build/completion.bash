# Completions of conform for bash: its commands, projects, lists, rates and options.
_conform() {
    local word=${COMP_WORDS[COMP_CWORD]} before=${COMP_WORDS[COMP_CWORD - 1]} command='' at
    for ((at = 1; at < COMP_CWORD; at++)); do
        case ${COMP_WORDS[at]} in
            -C | --into | --from) ((at++)) ;;
            -*) ;;
            *)
                command=${COMP_WORDS[at]}
                break ;;
        esac
    done
    local commands='frame list plan pull run part status verify sums qc sheet adopt demo'
    compopt -o filenames 2> /dev/null
    if [ "$before" = -C ] || [ "$before" = --into ] || [ "$before" = --from ]; then
        mapfile -t COMPREPLY < <(compgen -d -- "$word")
    elif [ -z "$command" ]; then
        mapfile -t COMPREPLY < <(compgen -W "$commands help -C --into --from --help --version --build --first-look" -- "$word")
    elif [ "$before" = --workers ] || [ "$before" = --share ]; then
        mapfile -t COMPREPLY < <(compgen -W '1 2 4 8 16' -- "$word")
    elif [ "$command" = help ]; then
        mapfile -t COMPREPLY < <(compgen -W "$commands" -- "$word")
    elif [[ $word == -* ]]; then
        case $command in
            run | part) mapfile -t COMPREPLY < <(compgen -W '--workers --share --quiet --help' -- "$word") ;;
            adopt | verify) mapfile -t COMPREPLY < <(compgen -W '--quiet --help' -- "$word") ;;
            *) mapfile -t COMPREPLY < <(compgen -W '--help' -- "$word") ;;
        esac
    else
        case $command:$((COMP_CWORD - at)) in
            list:1) mapfile -t COMPREPLY < <(compgen -f -X '!*.@(edl|EDL)' -- "$word"; compgen -d -- "$word") ;;
            list:2) mapfile -t COMPREPLY < <(compgen -W '24 25 30' -- "$word") ;;
            frame:1) mapfile -t COMPREPLY < <(compgen -f -X '!*.@(dpx|DPX)' -- "$word"; compgen -d -- "$word") ;;
            demo:* | pull:2 | part:2) ;;
            *) mapfile -t COMPREPLY < <(compgen -f -X '!*.toml' -- "$word"; compgen -d -- "$word") ;;
        esac
    fi
}
shopt -s extglob
complete -F _conform conform
