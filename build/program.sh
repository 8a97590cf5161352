# Which program ./spt runs, and which library for C ./install takes, for the scripts that read this file; $home is the folder of
# the repository. What was proved and built here is kept in .spt/, what was built for a release in dist/, each beside the digest of
# its sources.
made=$home/.spt
release=$home/dist
stamp=$made/code

# crates_of CRATE: the crate, and the crates of the repository that it uses, one a line
crates_of() {
    awk -v top="$1" '
        function visit(crate, words, count, i) {
            if (crate in seen || !(crate in uses)) return
            seen[crate] = 1
            print crate
            count = split(uses[crate], words, " ")
            for (i = 1; i <= count; i++) visit(words[i])
        }
        /^[^#]*:/ { name = $1; sub(/:$/, "", name); sub(/^[^:]*:/, ""); uses[name] = $0 }
        END { visit(top) }
    ' "$home/crates.txt" | LC_ALL=C sort
}

# find_sources CRATES [TEST..]: the files of the repository that the crates are made from, each ended by a null byte, behind what the
# tests of `find` before them take; tests and edits play no part
find_sources() {
    crates=$1
    shift
    find HANDLES $(printf 'crates/%s ' $crates) \( -name out -o -name edits.txt -o -path '*/src/tests*' -o -path '*/proofs/tests*' \) -prune -o "$@" -type f \( -name '*.rt' -o -name '*.antt' -o -name '*.txt' -o -name HANDLES \) -print0
}

# digest_of CRATES: of the sources of the crates, as one line
digest_of() (
    cd "$home"
    {
        for crate in $1; do grep "^$crate[ :]" crates.txt; done
        find_sources "$1" | LC_ALL=C sort -z | xargs -0 sha256sum
    } | sha256sum
)

# digest CRATE: of all that the crate is made from; digest_alone CRATE: of its own sources
digest() { digest_of "$(crates_of "$1")"; }
digest_alone() { digest_of "$1"; }

# what the program is made from, and what the library for C is made from
sources() { digest spt; }
library_sources() { digest spt_c; }

# built_from SOURCES FILE FOLDER..: whether the file of a folder was built from these sources; `folder` is the first such one
built_from() {
    wanted=$1
    file=$2
    shift 2
    for folder in "$@"; do
        if [ -x "$folder/$file" ] && IFS= read -r from < "$folder/sources" && [ "$from" = "$wanted" ]; then return; fi
    done
    return 1
} 2> /dev/null

# program SOURCES: the program of these sources; library SOURCES: the folder with the library for C of these; else nothing
program() { if built_from "$1" spt "$made" "$release"; then echo "$folder/spt"; fi; }
library() { if built_from "$1" libspt.so "$made/library" "$release/library"; then echo "$folder"; fi; }

# find_program: sets `found` to what `program "$(sources)"` prints, at once where no code has changed since all sources were read
#
# The stamp, .spt/code, calls `look_at` for each file of the code and each of their folders, and has the digest of all sources at its end.
# Its time is a second before these were read. No process is started for it: so many files are looked at in a ms or two.
find_program() {
    digest=
    is_changed=
    if IFS= read -r first < "$stamp" && [ "$first" = "look_at .git/index" ]; then . "$stamp" || digest=; fi 2> /dev/null
    if [ -z "$is_changed" ] && [ -n "$digest" ] && built_from "$digest  -" spt "$made" "$release"; then
        found=$folder/spt
    else
        found=$(program "$(stamp_sources)")
    fi
}

look_at() { if [ "$home/$1" -nt "$stamp" ]; then is_changed=1; fi; }

# The next start reads all sources.
forget_stamp() { rm -f "$stamp" 2> /dev/null || true; }

# Prints what `sources` prints, and makes the stamp where it can. Its time is of before the sources are read, so that a change meanwhile
# shows.
stamp_sources() (
    cd "$home"
    new=$({ mkdir -p "$made" && mktemp "$stamp.XXXXXX"; } 2> /dev/null) || new=
    trap 'rm -f "$new"' EXIT
    begun=$(stat -c %Y -- "$new" 2> /dev/null) || new=
    digest=$(sources)
    echo "$digest"
    if [ -n "$new" ] && list_code > "$new" && echo "digest=${digest%% *}" >> "$new" && chmod 644 "$new" && touch -d "@$((begun - 1))" "$new"; then
        mv -f "$new" "$stamp"
    fi 2> /dev/null
)

# list_code: the lines of a stamp. Proofs and definitions play no part in what the program does; git's list changes with each set of
# sources that it brings. Fails where a name may be more to a shell than a name.
list_code() {
    {
        printf '%s\0' .git/index build/program.sh crates.txt crates
        for crate in $(crates_of spt); do printf 'crates/%s\0' "$crate"; done
        find_sources "$(crates_of spt)" \( -name proofs -o -name specs -o -name must-fail \) -prune -o -type d -print0 -o
    } | tr '\n\0' '?\n' | LC_ALL=C awk '
        !/^[A-Za-z0-9._\/-]+$/ { is_strange = 1 }
        { print "look_at " $0 }
        END { exit is_strange }
    '
}

# Keeps the program that was just built in crates/spt, from the sources that the argument names.
keep() {
    mkdir -p "$made"
    cp "$home/crates/spt/out/spt" "$made/spt.new"
    mv "$made/spt.new" "$made/spt"
    echo "$1" > "$made/sources"
    rt version > "$made/kit"
}

# Keeps the library for C of the archive that was just built in crates/spt_c, from the sources that the argument names.
keep_library() (
    set -e
    rm -rf "$made/library"
    mkdir -p "$made/library.new"
    "$home/build/link" "$home/crates/spt_c/out/libspt_c.a" "$made/library.new"
    echo "$1" > "$made/library.new/sources"
    mv "$made/library.new" "$made/library"
)

# Whether the program that was built here must be the released one byte for byte: its sources and the kit are the same.
is_comparable() {
    [ -x "$made/spt" ] && cmp -s "$made/sources" "$release/sources" && cmp -s "$made/kit" "$release/kit"
}

# The same of the library for C, which other versions of the system's linker may lay out in another way.
is_library_comparable() {
    cmp -s "$made/library/sources" "$release/library/sources" && cmp -s "$made/library/tools" "$release/library/tools"
}
