#!/bin/sh
# prove.sh PROGRAM KERNEL CONDITIONS CERTIFICATE BROUGHT [WORD ..]: makes a certificate by the program, or says why there is none and fails.
#
# A certificate that is there, or else the file BROUGHT (which may be an empty word), is taken where it still shows the kernel: a check
# takes milliseconds, a search may take minutes. These files alone are read, and the certificate is written, whole or not at all.
program=$1 kernel=$2 conditions=$3 certificate=$4 brought=$5
shift 5

shows() {
    [ -f "$1" ] && "$program" check "$kernel" "$conditions" "$@" >/dev/null 2>&1
}

if shows "$certificate" "$@"; then
    touch "$certificate"
    exit
fi
if shows "$brought" "$@"; then
    cp "$brought" "$certificate.new" && mv "$certificate.new" "$certificate"
    exit
fi
# (what shows an earlier text shows nothing of this one)
rm -f "$certificate"
said=$("$program" prove "$kernel" "$conditions" --out "$certificate" "$@" 2>&1)
status=$?
if [ "$status" = 0 ] && [ -f "$certificate" ]; then
    exit 0
fi
if [ "$status" = 1 ]; then
    said=$("$program" explain "$kernel" "$conditions" "$@" 2>&1)
fi
printf '%s\n' "$said" | while IFS= read -r line; do
    printf '%s: %s\n' "$kernel" "$line"
done >&2
exit 1
