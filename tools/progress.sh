#!/bin/bash
# Usage: rt all check | progress.sh CRATES
#
# Says how far a check of all crates is, a line a crate, and passes on what is wrong; of a check of one crate only what
# is wrong. CRATES is the list crates.txt. (The shell reads line by line, where some kinds of awk wait for more.)

total=$(grep -c '^[a-z]' "$1")
count=0
proved=' '
earlier=0
part=
name=

while IFS= read -r line; do
    case $part,$line in
        *,'== summary') part=summary ;;
        *,'== '*) name=${line#== } ;;
        summary,*': ok') [[ $proved == *" ${line%: ok} "* ]] || earlier=$((earlier + 1)) ;;
        summary,*' crates ok')
            [[ $earlier == 0 ]] || echo "$earlier more stand as an earlier run proved them"
            echo "$line"
            ;;
        summary,*) echo "$line" ;;
        *,'logic=proved functions='*)
            functions=${line#logic=proved functions=}
            [[ -n $name ]] || continue
            count=$((count + 1))
            proved+="$name "
            echo "proved $count of $total: $name, ${functions%% *} functions"
            ;;
        *,*': error'* | *,*': no proof'* | *,*': not proved'* | *,'logic='*) echo "${name:+$name: }${line:0:160}" ;;
        *,'rt: chose'* | *,'rt: running'* | *,'rt: rt check --fix-imports'*) ;;
        *,'rt: the quick pass'* | *,'rt: '*': begins with what a check kept'*) ;;
        *,'rt: '*) echo "${line:0:200}" ;;
    esac
done
