# shellcheck shell=sh
# The caller's words, as the program is to get them; a script that runs the program reads this by `.`. The program is told to look widely
# (`--wide`) and to read OpenCL C (`--opencl`), but where the caller has the word `--narrow`, which is for these scripts alone; and to
# answer for devices of any width, but where the caller says which. `print` looks for nothing, and in the plain language for no devices.
case ${1-} in
check | explain | print | prove | run)
    command=$1
    breadth=--wide
    language=--opencl
    devices=any
    [ "$command" != print ] || breadth=''
    shift
    for word; do
        shift
        case $word in
        --narrow)
            breadth='' language=''
            [ "$command" != print ] || devices=''
            ;;
        --wide | --opencl) ;;
        *)
            case $word in --devices | --devices=*) devices='' ;; esac
            set -- "$@" "$word"
            ;;
        esac
    done
    set -- "$command" ${breadth:+"$breadth"} ${language:+"$language"} ${devices:+--devices "$devices"} "$@"
    ;;
esac
