# Functions of ./normalise, ./run, ./install, ./test and tools/targets, to be sourced with $root and $me (the command's name) set: they prove and
# build what has changed. With WANLOPHENG_BUILT=1 in the environment everything is taken as it is built, and nothing is proved.

# need TOOL WHAT: the tool has to be there
need() {
    if ! command -v "$1" >/dev/null; then
        echo "$me: $2 ($1) is needed and is not on the PATH" >&2
        exit 3
    fi
}

# listed: the crates of crates.txt, one a line
listed() {
    sed -nE 's/^([A-Za-z_0-9]+).*/\1/p' "$root/crates.txt"
}

# reached NAME ..: these crates and all below them, one a line
reached() {
    awk -v wanted="$*" '
        function visit(name,    list, i, n) {
            if (name in seen || !(name in below)) return
            seen[name] = 1
            print name
            n = split(below[name], list, " ")
            for (i = 1; i <= n; i++) visit(list[i])
        }
        { sub(/#.*/, "") }
        split($0, part, ":") == 2 { split(part[1], head, " "); below[head[1]] = part[2] }
        END { n = split(wanted, list, " "); for (i = 1; i <= n; i++) visit(list[i]) }' "$root/crates.txt"
}

# sum_of NAME ..: a checksum of all that a proof of these crates rests on: the kit, and the lines of crates.txt and the files of theirs and of all
# below them
sum_of() {
    local name part folders=()
    for name in $(reached "$@"); do
        for part in src specs proofs; do
            [ ! -d "$root/crates/$name/$part" ] || folders+=("crates/$name/$part")
        done
    done
    (
        cd "$root"
        rt version
        reached "$@" | awk 'NR == FNR { wanted[$1]; next } { split($0, head, /[ :]/) } head[1] in wanted' - crates.txt
        [ ! -f HANDLES ] || cat HANDLES
        find tools/staticlib "${folders[@]}" -type f -print0 | LC_ALL=C sort -z | xargs -0 sha256sum
    ) | sha256sum
}

# noted FILE NOTE SUM: whether the file is there, was made when the sum was noted and not since, and the sum is still that one
noted() {
    [ -f "$1" ] && [ -f "$2" ] && [ ! "$1" -nt "$2" ] && [ "$(cat "$2")" = "$3" ]
}

# note NOTE SUM
note() {
    mkdir -p "${1%/*}"
    echo "$2" >"$1"
}

# passed_ci: whether rt ci has passed all crates as they stand, as ./test noted
passed_ci() {
    # shellcheck disable=SC2046
    [ -f "$root/target/ci.sum" ] && [ "$(cat "$root/target/ci.sum")" = "$(sum_of $(listed))" ]
}

# left_by_ci NAME: whether the libraries below this crate are those that rt ci left, and none was built since (rt check puts a stamp beside its own)
left_by_ci() {
    local name
    for name in $(reached "$1"); do
        [ "$name" = "$1" ] && continue
        [ -f "$root/crates/$name/out/rlib/$name.rlib/format" ] && [ ! -f "$root/crates/$name/out/rlib/stamp" ] || return 1
    done
}

# progress: shows on one line how many crates are proved, from what rt writes to standard input, and nothing where none had to be proved
progress() {
    local line proved=0 now='' began=$SECONDS
    while IFS= read -r line; do
        case $line in
        'rt: chose --jobs '*) now="now ${line##* }, " ;;
        'logic=proved '*) proved=$((proved + 1)) ;;
        *) continue ;;
        esac
        [ ! -t 2 ] || printf '\r\033[K%s: %d crates proved, %s%d:%02d ' "$me" "$proved" "$now" $(((SECONDS - began) / 60)) $(((SECONDS - began) % 60)) >&2
    done
    [ -z "$now" ] || [ ! -t 2 ] || echo >&2
}

# told_first: says once, where a proof is due, that it takes its time
told=
told_first() {
    [ -n "$told" ] || echo "$me: proving and building what has changed; the first time takes long, since every crate below is proved (docs/TIMES.md)" >&2
    told=1
}

# quietly FOLDER COMMAND ..: runs a command that proves in a folder, shows its progress, and all that it wrote where it fails
quietly() {
    local folder=$1 log=$root/target/log/$me.out
    shift
    mkdir -p "$root/target/log"
    if ! (cd "$folder" && "$@" </dev/null 2>&1) | tee "$log" | progress; then
        cat "$log" >&2
        echo "$me: not proved" >&2
        exit 3
    fi
}

# run_once NAME: `rt run` in the crate's folder, which proves, builds and runs the program; here on nothing, and whatever it ends with
run_once() {
    rt run || true
    [ -x "out/$1" ]
}

# build_program NAME: proves and builds crates/NAME/out/NAME where something of it has changed
build_program() {
    local crate=$root/crates/$1 note=$root/target/built/$1.sum sum
    local program=$crate/out/$1
    if [ -n "${WANLOPHENG_BUILT:-}" ]; then
        [ -x "$program" ] && return
        echo "$me: crates/$1/out/$1 is missing, and WANLOPHENG_BUILT is set" >&2
        exit 3
    fi
    need rt "the Rattle toolchain"
    sum=$(sum_of "$1")
    ! noted "$program" "$note" "$sum" || return 0
    ! { [ -x "$program" ] && [ ! "$program" -nt "$root/target/ci.sum" ] && passed_ci; } || return 0
    told_first
    rm -f "$program"
    quietly "$crate" run_once "$1"
    note "$note" "$sum"
}

# archives: the archives of the library, one a line
archives() {
    sed '/^#/d' "$root/archives.txt"
}

# build_archive NAME: proves and writes target/staticlib/libNAME.a, and NAME.bc beside it, the module that it was compiled from, where something of
# it has changed. Right after ./test nothing below it is proved again.
build_archive() {
    local archive=$root/target/staticlib/lib$1.a module=$root/target/staticlib/$1.bc note=$root/target/built/lib$1.sum sum over=()
    if [ -n "${WANLOPHENG_BUILT:-}" ]; then
        [ -f "$archive" ] && return
        echo "$me: target/staticlib/lib$1.a is missing, and WANLOPHENG_BUILT is set" >&2
        exit 3
    fi
    need rt "the Rattle toolchain"
    sum=$(sum_of "$1")
    if noted "$archive" "$note" "$sum" && noted "$module" "$note" "$sum" && [ "$module" -nt "$archive" ]; then
        return
    fi
    told_first
    ! { left_by_ci "$1" && passed_ci; } || over=(--over-ci)
    quietly "$root" tools/staticlib ${over[@]+"${over[@]}"} "$1"
    note "$note" "$sum"
}

# build_archives: all archives of the library
build_archives() {
    local name
    for name in $(archives); do
        build_archive "$name"
    done
}
