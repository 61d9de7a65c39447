#!/bin/bash
# Usage: check_kit.sh RT README
#
# Says in one line what to do where the command RT is missing, or is of an older kit than the one that the last
# line of README names; ends with 1 then. RT may be several words, as `nice rt`.

rt=$1
wanted=$(sed -n 's/^Proved with \(rattle-kit-[^ ,.]*\).*/\1/p' "$2")

if ! command -v "${rt%% *}" >/dev/null; then
    echo "There is no command \`$rt\`: install $wanted and put its folder bin/ on the PATH, or say where it is: make RT=/path/to/rt" >&2
    exit 1
fi
have=$($rt version 2>/dev/null | sed -n '1s/^\(rattle-kit-[^ ]*\).*/\1/p')
oldest=$(printf '%s\n' "${have:-none}" "$wanted" | sort -V | head -n 1)
if [[ -z $have || ( $have != "$wanted" && $oldest == "$have" ) ]]; then
    echo "\`$rt\` is of ${have:-an unknown kit}, which is older than $wanted: install that one, or say where it is: make RT=/path/to/rt" >&2
    exit 1
fi
