# bash completion for ubibench: source this file, or put it into bash-completion's directory as `ubibench`.

_ubibench() {
    local word=${COMP_WORDS[COMP_CWORD]} before=${COMP_WORDS[COMP_CWORD - 1]} command=${COMP_WORDS[1]} options=
    COMPREPLY=()
    if [ "$COMP_CWORD" -eq 1 ]; then
        mapfile -t COMPREPLY < <(compgen -W 'list probe show report move diff build --help --version' -- "$word")
        return
    fi
    case $before in
        --peb-size) mapfile -t COMPREPLY < <(compgen -W '16k 64k 128k 256k' -- "$word"); return ;;
        --unit | --sub-unit) mapfile -t COMPREPLY < <(compgen -W '1 512 2048 4096' -- "$word"); return ;;
        --oob) mapfile -t COMPREPLY < <(compgen -W '16 64 128 224 256' -- "$word"); return ;;
        --blocks | --volume | --leb | --to | --stop-after | --title | --image-seq) return ;;
    esac
    local chip='--peb-size --unit --sub-unit --slip --blocks'
    case $command in
        list) options="$chip --oob --json --help" ;;
        probe) options='--unit --oob --json --help' ;;
        show | diff) options="$chip --oob --help" ;;
        report) options="$chip --oob --output --title --help" ;;
        move) options="$chip --volume --leb --to --output --in-place --stop-after --help" ;;
        build) options='--peb-size --unit --sub-unit --blocks --output --image-seq --help' ;;
    esac
    if [[ $word == -* ]]; then
        mapfile -t COMPREPLY < <(compgen -W "$options" -- "$word")
        return
    fi
    mapfile -t COMPREPLY < <(compgen -f -- "$word")
}

complete -o filenames -F _ubibench ubibench
