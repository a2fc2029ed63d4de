#!/bin/sh
# What an unattended run does with a save: 'book.sh SAVE SHA256 KEY..' prints the amounts at a path of keys, one a
# line, to be booked. Where anything is not as it should be, it prints nothing, says why on standard error, and
# ends with a status that is not 0.
set -u
[ $# -ge 3 ] || { echo 'usage: book.sh SAVE SHA256 KEY..' >&2; exit 2; }
save=$1
sum=$2
shift 2

# A save that was cut short may parse. Only the sum of what was sent tells.
if [ "$(sha256sum <"$save" | cut -d ' ' -f 1)" != "$sum" ]; then
    echo "$save: not what was sent" >&2
    exit 1
fi

# 1: refused. 3: the system refused. 4: no such value. Each was said on standard error.
values=$(tackacorn get "$save" "$@") || exit

# All of them or none: 'Whole > 10' is no amount, nor are the Names 109E4, 109f and '-'; nor is here a number with a
# sign or an 'f', or of more digits than an amount has.
if printf '%s\n' "$values" | grep -qvxE '(Whole|Decimal) [0-9]{1,15}(\.[0-9]{1,3})?'; then
    echo "$save: not all of these are amounts: $(printf '%s' "$values" | tr '\n' ',')" >&2
    exit 1
fi
printf '%s\n' "$values" | cut -d ' ' -f 2
