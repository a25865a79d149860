#compdef conform
# Completions of conform for zsh: its commands, projects, lists, rates and options.
local -a commands
commands=(frame list plan pull run part status verify sums qc sheet adopt demo)
local command=
local -i at
for ((at = 2; at < CURRENT; at++)); do
    case $words[at] in
        -C|--into|--from) ((at++)) ;;
        -*) ;;
        *) command=$words[at]; break ;;
    esac
done
if [[ $words[CURRENT-1] == -(C|-into|-from) ]]; then
    _files -/
elif [[ -z $command ]]; then
    compadd -- $commands help -C --into --from --help --version --build --first-look
elif [[ $words[CURRENT-1] == --(workers|share) ]]; then
    compadd 1 2 4 8 16
elif [[ $command == help ]]; then
    compadd -- $commands
elif [[ $words[CURRENT] == -* ]]; then
    case $command in
        run|part) compadd -- --workers --share --quiet --help ;;
        adopt|verify) compadd -- --quiet --help ;;
        *) compadd -- --help ;;
    esac
else
    case $command:$((CURRENT - at)) in
        list:1) _files -g '*.(edl|EDL)' ;;
        list:2) compadd 24 25 30 ;;
        frame:1) _files -g '*.(dpx|DPX)' ;;
        demo:*|pull:2|part:2) ;;
        *) _files -g '*.toml' ;;
    esac
fi
