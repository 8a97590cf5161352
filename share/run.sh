# How the program is run, for ./spt and the command that ./install makes: both read this file and call `run PROGRAM WORD..`, which
# becomes the program. Four things are done for it:
#
# - tune: large lists get large pages, and freed memory is kept for reuse where one thread allocates it (docs/DECISIONS.md).
# - may_fail: where the C library is another one, or too old for the program, one line says so.
# - tidy_after: where a signal ends the program, the new file for -o, .spt-PID-*.part in the same folder, is removed.
# - run_by_other_names: the program takes words in UTF-8 alone; files may have other names.

# The loader of the program, and the C library in the places that systems have for it: a link where that is older than 2.34.
loader=/lib64/ld-linux-x86-64.so.2
libraries='/lib/x86_64-linux-gnu/libc.so.6 /lib64/libc.so.6'

run() {
    if [ -z "${GLIBC_TUNABLES+set}" ]; then tune "$@"; fi
    if may_fail && ! "$1" --version > /dev/null 2>&1; then
        end 126 "the program doesn't run here: it needs the GNU C library 2.34 or later, on x86-64"
    fi
    case $* in
    *[!\ -~]*) if ! is_utf8 "$*"; then run_by_other_names "$@"; fi ;;
    esac
    tidy_after "$@"
    exec "$@"
}

end() { # STATUS WORDS
    echo "spt: $2" >&2
    exit "$1"
}

# One thread makes the lists of `pairs`, and with one worker those of `tree`, which keeps at most 8 MiB since nothing follows it, and of
# `matrix`. (`nearest` would take more memory than is promised.)
tune() { # PROGRAM WORD..
    workers=1 before=
    for word; do
        case $before,$word in
        --workers,*) workers=$word ;;
        *,--workers=*) workers=${word#*=} ;;
        esac
        before=$word
    done
    case ${2-},$workers in
    tree,1) kept=8388608 ;;
    pairs,* | matrix,1) kept=1073741824 ;;
    *) kept= ;;
    esac
    export GLIBC_TUNABLES="glibc.malloc.hugetlb=1${kept:+:glibc.malloc.mmap_threshold=1073741824:glibc.malloc.trim_threshold=$kept}"
}

may_fail() {
    for library in $libraries; do
        if [ -L "$library" ]; then return; fi
    done
    [ ! -e "$loader" ]
}

# Starts a process behind this one where -o names a file; not where that would find what another has left, or in the first process of a
# container, which takes all others with it. It has a session of its own, is deaf to signals, reads no input and writes nothing.
tidy_after() { # WORD..
    output= before=
    for word; do
        case $before,$word in
        -o,* | --output,*) output=$word ;;
        *,-o=* | *,--output=*) output=${word#*=} ;;
        *,-o?*) output=${word#-o} ;;
        esac
        if [ -n "$output" ] || [ "$word" = -- ]; then break; fi
        before=$word
    done
    if [ -L "$output" ]; then output=$(readlink -f -- "$output") || return 0; fi
    if [ "${output:--}" = - ] || [ $$ = 1 ] || { [ -e "$output" ] && [ ! -f "$output" ]; }; then return; fi
    its=.spt-$$
    case $output in */*) its=${output%/*}/$its ;; esac
    set -- "$its"-*.part
    if [ -e "$1" ]; then return; fi
    tidier='exec > /dev/null; tail -s 0.1 --pid="$1" -f /dev/null && rm -f -- "$2"-*.part'
    # This goes on once the process has its session, or is gone: nothing else holds the pipe of `$()`.
    : "$(trap '' INT TERM HUP QUIT; setsid sh -c "$tidier" sh $$ "$its" < /dev/null 2> /dev/null &)"
}

is_utf8() { printf %s "$1" | iconv -f UTF-8 -t UTF-8 > /dev/null 2>&1; }

# Opens the files to be read, and has what goes to the file of -o written to standard output.
run_by_other_names() { # PROGRAM WORD..
    program=$1
    shift
    target= before= left=$#
    while [ "$left" != 0 ]; do
        word=$1
        shift
        left=$((left - 1))
        if ! is_utf8 "$word"; then
            case $before,$word in
            -o,* | --output,*) target=$word word=- ;;
            ,-o=* | ,--output=*) target=${word#*=} word=${word%%=*}=- ;;
            ,-o*) target=${word#-o} word=-o- ;;
            *) open_input ;;
            esac
        fi
        case $word in -o | --output) before=$word ;; *) before= ;; esac
        set -- "$@" "$word"
    done
    if [ -n "$target" ]; then write_to_target "$program" "$@"; fi
    tidy_after "$@"
    exec "$program" "$@"
}

# Sets `word` to a name that its file has while it is open here, or where it can't be opened, to one that no file has.
open_input() {
    if [ -r "$word" ] && [ ! -S "$word" ] && free_number; then
        eval "exec $number< \"\$word\""
        word=/dev/fd/$number
    else
        shown=$(printf %s "$word" | LC_ALL=C tr '\200-\377' '?')
        if [ ! -e "$shown" ]; then word=$shown; fi
    fi
}

# Sets `number` to that of a file that isn't open here, of those that a shell can spell.
free_number() {
    for number in 9 8 7 6 5 4 3; do
        if [ ! -e "/dev/fd/$number" ]; then return; fi
    done
    return 1
}

# Makes `target` standard output where it is a device or a pipe. Else the program is another process, which ends where this one does, and
# its text gets the target's name and mode.
write_to_target() { # PROGRAM WORD..
    if [ -e "$target" ] && [ ! -f "$target" ]; then
        { command exec > "$target"; } 2> /dev/null || end 6 "output: cannot write"
        return
    fi
    target=$(readlink -f -- "$target") || end 6 "output: cannot write"
    new=${target%/*}/.spt-$$-out.part
    tidy_after -o "$new"
    { true > "$new"; } 2> /dev/null || end 6 "output: cannot write"
    if setpriv --pdeathsig TERM true 2> /dev/null; then set -- setpriv --pdeathsig TERM "$@"; fi
    # In the background, so that an interrupt reaches this shell at once, with the input that it would lose there.
    free_number || end 1 "too many open files"
    eval "exec $number<&0; \"\$@\" <&$number $number<&- > \"\$new\" &"
    trap 'trap - INT; kill -INT $$' INT
    status=0
    wait $! || status=$?
    case $status in
    0 | 3 | 4)
        if [ -f "$target" ]; then chmod --reference="$target" -- "$new"; fi
        { sync -- "$new" && mv -fT -- "$new" "$target"; } || end 6 "output: cannot write"
        ;;
    *) rm -f -- "$new" ;;
    esac
    exit "$status"
}
