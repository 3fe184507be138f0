# shellcheck shell=bash
# What the commands share: how they end, and how they build what they need. To be sourced in the repository's root.

# The static libraries, each of the crate of its name.
# shellcheck disable=SC2034
static_libraries=(draugsten draugsten_dump draugsten_replay draugsten_tallies draugsten_locations)

# The programs that print areas, each of the crate of its name.
# shellcheck disable=SC2034
print_programs=(print_nodes print_properties print_indices)

# Where `rt lib` leaves a static library, and `rt run` a program. `rt ci` takes away what they left.
archive_of() {
    echo "crates/$1/out/lib$1.a"
}

program_of() {
    echo "crates/$1/out/$1"
}

say() {
    echo "draugsten: $*" >&2
}

# Says why something could not be done, and what helps, and ends.
fail() {
    say "$@"
    exit 1
}

# Whether a descriptor is open.
is_open() {
    [[ -e /proc/self/fd/$1 ]]
}

# Ends where a program is missing, and says where it comes from.
need() {
    command -v "$1" >/dev/null || fail "there is no $1 on the PATH: $2"
}

# Runs a program and ends as it does, with 0 done, 1 not done, 2 wrong usage or 3 a difference. Any other end is none of its own.
end_as() {
    local status=0
    "$@" || status=$?
    [[ $status -gt 3 ]] || exit "$status"
    fail "$1 ended with status $status before it had a result; see what stands above, and that its output can be written"
}

# Whether the mark of a build is there, and nothing that the crates are made from, nor of more sources that are named, is newer.
is_marked() {
    [[ -e $1 && -z $(find crates.txt crates/*/src crates/*/specs crates/*/proofs "${@:2}" -newer "$1" -print -quit) ]]
}

# Whether a built file is there, and nothing of the crates is newer than the beginning of its build.
is_new() {
    [[ -e $1 ]] && is_marked "$1.built"
}

# Whether all of these crates' archives are there and new.
are_new() {
    local crate
    for crate; do
        is_new "$(archive_of "$crate")" || return
    done
}

# Ends if a folder that a build writes to cannot be written: the folder, or if it is not there the one that it would be made in.
need_writable() {
    local folder=$1
    while [[ ! -e $folder ]]; do
        folder=$(dirname "$folder")
    done
    [[ -w $folder ]] || fail "something has to be built, and $(readlink -f "$folder") cannot be written; build it in a checkout that you may write"
}

need_lock() {
    need flock 'install util-linux'
}

# Runs a command while no other build runs: it waits for the lock, which is on the repository's folder.
locked() {
    local lock status=0
    need_lock
    exec {lock}<.
    flock -n "$lock" || { say 'another build is running; waiting for it' && flock "$lock"; }
    "$@" || status=$?
    exec {lock}<&-
    return "$status"
}

# The number of crates that a crate is made of, itself one of them. crates.txt has each after those that it needs.
count_crates() {
    tac crates.txt | awk -v wanted=" $1 " '
        /^#/ { next }
        { sub(/( staticlib)?:/, " ") }
        index(wanted, " " $1 " ") { count++; for (i = 2; i <= NF; i++) wanted = wanted $i " " }
        END { print count }'
}

# Of what rt writes, tells each crate that is proved: how many of its modules are checked now, and how many were by an earlier run.
tell_proved() {
    local line crate='' now=0 before=0
    while IFS= read -r line; do
        if [[ $line =~ ^crate\ ([A-Za-z0-9_]+):\ modules\ loaded=([0-9]+)\ checked=([0-9]+) ]]; then
            crate=${BASH_REMATCH[1]} before=${BASH_REMATCH[2]} now=${BASH_REMATCH[3]}
        elif [[ $line == logic=proved* && $crate ]]; then
            say "proved $crate ($now modules now, $before by an earlier run)"
            crate=''
        fi
    done
}

# Runs a command of rt in a crate's folder: `rt lib` makes a static library, for any x86-64 as the header says, and `rt run` a program,
# which it then runs once, over an empty input. What it writes is kept in the file that the log is.
in_crate() {
    local verb=$1 crate=$2 log=$3 words=()
    [[ $verb != lib ]] || words=(--cpu x86-64)
    (cd "crates/$crate" && exec rt "$verb" "${words[@]}") </dev/null 2>&1 | tee "$log" | tell_proved
}

# Makes a file of a crate by a command of rt. Its mark, FILE.built, has the time of the beginning. What was there goes first, so that what
# is there afterwards was made now.
make_file() {
    local verb=$1 crate=$2 file=$3 log=target/draugsten-build.log
    is_new "$file" && return
    say "building $file once: of its $(count_crates "$crate") crates those that are not proved yet take some minutes each, later calls no time"
    mkdir -p target "$(dirname "$file")"
    rm -f "$file" "$file.built"
    touch "$file.begun"
    in_crate "$verb" "$crate" "$log" || return
    [[ -e $file ]] && mv "$file.begun" "$file.built"
}

# Ends if something that rt needs is missing.
need_rt() {
    need rt 'install the Rattle kit and add its folder bin to the PATH'
    need_lock
    need_writable target
    need_writable crates
}

# Builds a file of a crate by a command of rt, if it is missing or old.
build() {
    is_new "$3" && return
    need_rt
    locked make_file "$@" && return
    cat target/draugsten-build.log >&2 || true
    fail "$3 could not be built; what rt said stands above, and in target/draugsten-build.log"
}

build_archives() {
    local crate
    for crate; do
        build lib "$crate" "$(archive_of "$crate")"
    done
}

# The archives in a folder of their own, in which `ld` and the tests look for all of them.
gather_archives() {
    local folder=$1 crate
    mkdir -p "$folder"
    for crate in "${@:2}"; do
        cp -p "$(archive_of "$crate")" "$folder/" || return
    done
}

# Whether a program of a folder is there, and newer than its sources.
is_program_new() {
    [[ -e $1/target/release/$2 ]] && is_marked "$1/target/built" "$1"/{src,Cargo.toml,Cargo.lock,build.rs} rust/src include tools/archives.rs
}

# Makes the programs of a folder by cargo. Their mark has the time of the beginning.
make_programs() {
    is_program_new "$1" "$2" && return
    say "building the programs of $1/ once, in up to some minutes"
    mkdir -p "$1/target"
    rm -f "$1/target/built"
    touch "$1/target/begun"
    cargo build --release --offline --quiet --manifest-path "$1/Cargo.toml" </dev/null || return
    [[ -e $1/target/release/$2 ]] && mv "$1/target/begun" "$1/target/built"
}

# Ends if something is missing that building the programs of a folder needs, with the archives of these crates.
need_programs() {
    need cargo 'install Rust'
    need_lock
    need_writable "$1/target"
    are_new "${@:2}" || need_rt
}

# Builds a program of a folder, and the archives that it links, if it is missing or old.
build_program() {
    need_programs "$1" "${static_libraries[@]}"
    build_archives "${static_libraries[@]}"
    locked make_programs "$1" "$2" || fail "$1/ could not be built; what cargo said stands above"
}
