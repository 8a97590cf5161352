#!/bin/sh
# The trees of a long list of sources by several processes, or on several machines, by GNU parallel: the bytes of one `spt tree`.
#
#   trees_by_parallel.sh GR SS SHARE [OPTION..] > TREES
#
# Each process answers SHARE sources of the file SS. A share whose process is lost or fails is answered again, three times at most. The
# options are GNU parallel's own: --jobs 4 for four processes at once, --sshlogin one,two for two machines, each of which has the
# program and both files at the same paths. GR may be packed. SPT names the program, DELTA the width of a bucket (mean), and DIRECTION
# how arcs lead where it isn't as given: towards for trees towards the sources, both-ways where each arc leads both ways.
#
# The status is 0 where all trees were written, 1 for a wrong word, 2 for a file of sources that isn't one, else that of a share, and of
# what else GNU parallel tells.
set -eu

refuse() { # STATUS LINE
    printf "%s\n" "trees_by_parallel.sh: $2" >&2
    exit "$1"
}

[ $# -ge 3 ] || refuse 1 "usage: trees_by_parallel.sh GR SS SHARE [OPTION..] > TREES"
gr=$1 ss=$2 share=$3
shift 3
case $share in
'' | 0* | *[!0-9]* | ????????*) refuse 1 "SHARE is a number from 1 to 9999999, not '$share'" ;;
esac
case ${DIRECTION-} in
'') direction= ;;
towards | both-ways) direction=--$DIRECTION ;;
*) refuse 1 "DIRECTION is towards or both-ways, not '$DIRECTION'" ;;
esac
for file in "$gr" "$ss"; do
    case $file in
    -) refuse 1 "each process reads GR and SS, so neither can be standard input" ;;
    *'{'*) refuse 1 "$file: GNU parallel would put something in place of the braces" ;;
    esac
done
[ -f "$ss" ] && [ -r "$ss" ] || refuse 2 "$ss: no file that can be read"
command -v parallel > /dev/null || refuse 1 "GNU parallel isn't installed (Debian: parallel)"

# The number of sources, as the first line tells that isn't a comment.
count=$(LC_ALL=C awk '
    { sub(/\r$/, "") }
    NF == 0 || $1 == "c" { next }
    NF == 5 && $1 " " $2 " " $3 " " $4 == "p aux sp ss" && $5 ~ /^(0|[1-9][0-9]*)$/ { print $5 }
    { exit }
' < "$ss")
case $count in
'') refuse 2 "$ss: no file of sources, which begins with p aux sp ss K" ;;
????????*) refuse 2 "$ss: more sources than a file may have" ;;
esac

# The places of each share; of a list without a source one share, so that both files are read.
places() {
    first=1
    while echo "$first-$((first + share - 1))" && first=$((first + share)) && [ "$first" -le "$count" ]; do :; done
}
places | parallel --quote --keep-order --retries 3 --halt now,fail=1 "$@" \
    "${SPT:-spt}" tree "$gr" "$ss" ${direction:+"$direction"} --delta "${DELTA:-mean}" --far-ok --sources {}
