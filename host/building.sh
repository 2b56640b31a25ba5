# shellcheck shell=bash disable=SC2154
# What ./judge and ./install build, and where it stands. Both source this, with `top` the repository and `who` their own name.
#
# HRASKELL_PROGRAM names a program to take in place of the one built here, HRASKELL_DESK a desk program, and HRASKELL_LIB the
# folder of a libexports.a: what is named is not built, and nothing is proved for it.
shopt -s globstar nullglob

# Where each part stands: rt leaves what it builds in the crate's out/.
made=$top/crates/exports/out
[ -z "${HRASKELL_LIB:-}" ] || made=$(readlink -m -- "$HRASKELL_LIB")
library=$made/libexports.a
program=${HRASKELL_PROGRAM:-$top/target/host/release/hraskell}
desk=${HRASKELL_DESK:-$top/crates/desk_main/out/desk_main}
stamps=$top/target/built

kept=
ticker=

say() {
    printf '%s: %s\n' "$who" "$*" >&2
}

# Nothing was done: says why and what to do.
give_up() {
    say "$*"
    exit 4
}

# Whether the part at this path is missing, or older than one of the sources.
is_older() { # PART STAMP SOURCE..
    local part=$1 stamp=$2 source
    shift 2
    [ -f "$part" ] && [ -f "$stamp" ] || return 0
    for source; do
        [ "$source" -nt "$stamp" ] && return 0
    done
    return 1
}

# Whether a part has to be built. A part that is named is taken as it is.
is_stale() { # library | program | desk
    case $1 in
    library) [ -z "${HRASKELL_LIB:-}" ] && is_older "$library" "$stamps/library" "$top"/crates.txt "$top"/crates/*/{src,specs,proofs}/** ;;
    desk) [ -z "${HRASKELL_DESK:-}" ] && is_older "$desk" "$stamps/desk" "$top"/crates.txt "$top"/crates/*/{src,specs,proofs}/** ;;
    program)
        [ -z "${HRASKELL_PROGRAM:-}" ] || return 1
        is_older "$program" "$stamps/program" "$library" "$top"/host/Cargo.{toml,lock} "$top"/host/{src,library}/** ||
            [ "$(<"$stamps/program")" != "$library" ]
        ;;
    esac
}

# Builds the parts wanted, as far as they are stale. Two calls at a time would build into one folder: the later one waits.
# Where there is no flock, both build.
build() { # PART..
    local part stale='' lock
    for part; do
        ! is_stale "$part" || stale=yes
    done
    [ -n "$stale" ] || return 0
    mkdir -p "$stamps" || give_up "there is no room for a build: $top/target has to be writable"
    kept=$(mktemp -d) || give_up "there is no room for a build: mktemp makes no folder"
    trap clear_away EXIT
    exec {lock}>"$stamps/lock"
    if command -v flock >/dev/null && ! flock -n "$lock"; then
        say "waiting for another build to end"
        flock "$lock"
    fi
    for part; do
        ! is_stale "$part" || build_part "$part"
    done
    # Some child may still have the file open.
    ! command -v flock >/dev/null || flock -u "$lock"
    exec {lock}>&-
    clear_away
    trap - EXIT
}

# Leaves nothing behind: no files, and no ticker.
clear_away() {
    [ -z "$ticker" ] || kill "$ticker" 2>/dev/null
    [ -z "$kept" ] || rm -rf "$kept"
    ticker=
    kept=
}

build_part() { # PART
    local began=$SECONDS
    # The stamp gets the time before the build, so that a source changed meanwhile counts as newer.
    printf '%s' "$library" >"$kept/stamp"
    : >"$kept/output"
    "build_$1"
    cp -p "$kept/stamp" "$stamps/$1"
    say "built in $((SECONDS - began)) s"
}

build_library() {
    local crates
    wants_rt
    say "building the library (rt lib in crates/exports): the first time proves all that it stands on, some minutes"
    mapfile -t crates < <(crates_below exports)
    run crates/exports "${crates[*]}" rt lib
    [ -f "$library" ] || give_up "rt left no $library"
}

# rt run builds the program and runs it, here on no input.
build_desk() {
    local crates
    wants_rt
    say "building the desk program (rt run in crates/desk_main): the first time proves all that it stands on, some minutes"
    mapfile -t crates < <(crates_below desk_main)
    run crates/desk_main "${crates[*]}" rt run
    [ -f "$desk" ] || give_up "rt left no $desk"
}

build_program() {
    wants cargo "cargo"
    say "building the program (cargo build)"
    run . '' env HRASKELL_LIB="$made" HRASKELL_BUILT_FROM="$(built_from)" CARGO_TARGET_DIR="$top/target/host" \
        cargo build --release --offline --manifest-path host/Cargo.toml
    [ -f "$program" ] || give_up "cargo left no $program"
}

wants() { # COMMAND NAME
    command -v "$1" >/dev/null || give_up "something has to be built, and $2 is not on the PATH"
}

# The kit proves and builds on x86-64 alone, and what it builds is for that processor.
wants_rt() {
    local processor
    processor=$(uname -m)
    [ "$processor" = x86_64 ] ||
        give_up "something has to be built, and the Rattle kit runs on x86-64 alone (this is $processor): HRASKELL_LIB, HRASKELL_PROGRAM and HRASKELL_DESK name parts that are built already"
    wants rt "rt of the Rattle kit"
}

# What the program says of itself: the revision, where git tells it, and the kit.
built_from() {
    local revision='' kit=''
    if [ -e "$top/.git" ] && revision=$(git -C "$top" rev-parse --short=12 HEAD 2>/dev/null); then
        [ -z "$(git -C "$top" status --porcelain 2>/dev/null)" ] || revision+=" with changes"
        revision="revision $revision"
    fi
    [ -n "${HRASKELL_LIB:-}" ] || kit=$(rt version 2>/dev/null)
    printf '%s' "$revision${revision:+${kit:+, }}$kit"
}

# The crate and all that it stands on in this repository, in the order in which rt takes them: each after those that it stands on.
crates_below() { # CRATE
    awk -v wanted="$1" '
        function visit(crate, names, count, k) {
            if (!(crate in below) || seen[crate]++) return
            count = split(below[crate], names)
            for (k = 1; k <= count; k++) visit(names[k])
            print crate
        }
        /^[^#]/ { heads = $0; sub(/:.*/, "", heads); split(heads, words); sub(/^[^:]*:/, ""); below[words[1]] = $0 }
        END { visit(wanted) }' "$top/crates.txt"
}

# Runs a command of a build in a folder of the repository, with its output kept, and shown if it fails.
run() { # FOLDER PROVED COMMAND..: the crates that it proves, in one word; `began` is when the part was begun
    local folder=$1 proved=$2 status
    shift 2
    # The ticker must not take the trap along: killed at once, it would run it and clear away what is still needed.
    trap - EXIT
    # shellcheck disable=SC2086 # the crates are several words
    tick "$began" $proved &
    ticker=$!
    trap clear_away EXIT
    (cd "$top/$folder" && "$@") >>"$kept/output" 2>&1 </dev/null
    status=$?
    kill "$ticker" && wait "$ticker" 2>/dev/null
    ticker=
    [ "$status" -eq 0 ] && return
    # rt counts modules, a line for each library, also behind what it refuses.
    awk '!/^(statements|library|logic) /' "$kept/output" | tail -n 15 >&2
    [ "$folder" = . ] && folder='' || folder=" in $folder"
    give_up "could not be built: '${*##*/}'$folder ended with status $status; the end of what it said is above"
}

# Shows every five seconds how far a build is.
tick() { # BEGAN CRATE..
    local began=$1 far
    shift
    while sleep 5 >/dev/null 2>&1; do
        far=$(how_far "$@")
        say "building, $((SECONDS - began)) s so far${far:+: $far}"
    done
}

# rt takes one crate after the other. It begins each that is to be proved with a line that names it, and ends it with its verdict;
# of one that it finds proved already it says nothing. Before the first line nothing is known.
how_far() { # CRATE..: in rt's order
    awk -v crates="$*" '
        BEGIN { count = split(crates, names); for (k = 1; k <= count; k++) place[names[k]] = k }
        /^rt: chose --jobs [0-9]+ for / && $NF in place { now = $NF; proved = place[now] - 1 }
        /^logic=proved/ && now != "" { proved = place[now]; now = "" }
        END { if (proved || now != "") printf "%d of %d crates proved%s", proved, count, now == "" ? "" : ", now at " now }' "$kept/output"
}
