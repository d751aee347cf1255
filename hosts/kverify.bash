# Completion of kverify for bash.
_kverify() {
    local word=${COMP_WORDS[COMP_CWORD]} before=${COMP_WORDS[COMP_CWORD - 1]} command=${COMP_WORDS[1]}
    if [ "$COMP_CWORD" = 1 ]; then
        mapfile -t COMPREPLY < <(compgen -W 'prove check explain run print migrate draft help --help --version' -- "$word")
        return
    fi
    case $before in
    --devices) mapfile -t COMPREPLY < <(compgen -W 'any 32' -- "$word") ;;
    --workers) mapfile -t COMPREPLY < <(compgen -W '1 2 4 8 16 32 64' -- "$word") ;;
    *)
        case $command:$word in
        prove:-*) mapfile -t COMPREPLY < <(compgen -W '--workers --out --devices --narrow' -- "$word") ;;
        run:-*) mapfile -t COMPREPLY < <(compgen -W '--workers --devices --narrow' -- "$word") ;;
        draft:-*) mapfile -t COMPREPLY < <(compgen -W '--head --launch --out --seconds' -- "$word") ;;
        check:-* | explain:-* | print:-*) mapfile -t COMPREPLY < <(compgen -W '--devices --narrow' -- "$word") ;;
        *) mapfile -t COMPREPLY < <(compgen -f -- "$word") ;;
        esac
        ;;
    esac
}
complete -o filenames -F _kverify kverify
