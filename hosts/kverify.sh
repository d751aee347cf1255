#!/bin/sh
# Runs the program that was laid down with this script (libexec/kverify) with the caller's words. `man kverify` tells the rest.
file=$(readlink -f -- "$0" 2>/dev/null) || file=$0
root=$(CDPATH='' cd -- "$(dirname -- "$file")/.." && pwd) || exit 3

if [ "$#" = 1 ]; then
    case $1 in
    help | --help)
        cat "$root/share/kverify/help"
        exit
        ;;
    --version)
        cat "$root/share/kverify/version"
        exit
        ;;
    esac
fi
. "$root/share/kverify/words.sh"
if ! grep -q '^The program is proved\.$' "$root/share/kverify/version"; then
    echo 'kverify: nothing is proved of the program that answers here' >&2
fi
if [ "${1-}" = draft ]; then
    shift
    exec python3 "$root/share/kverify/draft/draft.py" "$root/libexec/kverify" "$@"
fi
exec "$root/libexec/kverify" "$@"
