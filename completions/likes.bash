# Completion of `likes` for bash. Source this file, or install it as
# ~/.local/share/bash-completion/completions/likes, where the package bash-completion finds it.

_likes() {
    local cur prev words cword
    _init_completion -s || return

    local command="" word
    for word in "${words[@]:1:cword-1}"; do
        case $word in
            run | replay)
                command=$word
                break
                ;;
        esac
    done

    case $command in
        run) local options="--workers --users --stash --turns --hot --places --totals --summary --progress --help" ;;
        replay) local options="--workers --users --stash --turns --hot --places --totals --summary --progress --script --help" ;;
        *)
            COMPREPLY=($(compgen -W "run replay help --help --version" -- "$cur"))
            return
            ;;
    esac

    case $prev in
        --workers | --users | --stash | --turns | --hot | -[wust])
            # A number.
            return
            ;;
    esac
    if [[ $prev != --script && $cur == -* ]]; then
        COMPREPLY=($(compgen -W "$options" -- "$cur"))
    else
        _filedir csv
    fi
} && complete -F _likes likes
