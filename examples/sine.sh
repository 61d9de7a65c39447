#!/bin/sh
# Writes sixteen samples, one period of a sine, each of 16 bits with the low byte first: 32 bytes.
set -eu
for sample in 0 3061 5657 7391 8000 7391 5657 3061 0 -3061 -5657 -7391 -8000 -7391 -5657 -3061; do
    bits=$(( (sample + 65536) % 65536 ))
    # shellcheck disable=SC2059
    printf "\\$(printf %03o $(( bits % 256 )))\\$(printf %03o $(( bits / 256 )))"
done
