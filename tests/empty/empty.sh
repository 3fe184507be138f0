# shellcheck shell=bash
# Runs programs in C and tries each of their calls with empty buffers too (empty.h). tests/link and tests/power/run source
# it in the repository's root, after tools/build.sh.

# Together they call every function, with contents of all kinds.
empty_programs=(examples/{session,dump,replay,month,table,tallies} tests/{refusals,table,tallies,intakes,locations})

# Makes in a folder what each program is linked with: the archives of another folder, with other names for their functions
# and for what they need, and the functions that make the tries. Takes the two folders, objcopy, and how C is compiled.
make_empty() {
    local folder=$1 archives=$2 objcopy=$3 crate name others=()
    shift 3
    mkdir -p "$folder"
    python3 tests/power/calls.py "$folder" || return
    for name in memcpy memmove memset; do
        others+=(--redefine-sym "$name=under_$name")
    done
    # shellcheck disable=SC2154
    for crate in "${static_libraries[@]}"; do
        "$objcopy" --redefine-syms="$folder/names" "${others[@]}" "$archives/lib$crate.a" "$folder/lib$crate.a" || return
    done
    for name in tests/empty/empty.c "$folder/empty_calls.c"; do
        "$@" -Itests/empty -Itests/power -c "$name" -o "$folder/$(basename "$name" .c).o" || return
    done
}

# Compiles a program with these and runs it, with its files: the folder, the program, what runs it or '', and how C is
# compiled.
run_empty() {
    local folder=$1 program=$2 runner=$3 words=()
    shift 3
    case $program in
        examples/replay) words=(examples/replay/{journal,inventory} examples/month/whole) ;;
        examples/month) words=(examples/replay/{journal,inventory} examples/month/{whole,front}) ;;
    esac
    "$@" "$program.c" "$folder"/*.o "$folder"/lib*.a -o "$folder/program" || return
    DRAUGSTEN_EMPTY=$folder/counts ${runner:+"$runner"} "$folder/program" "${words[@]}"
}

# Every buffer of every function was NULL in a try, and every function without a buffer was called.
check_empty_counts() {
    awk 'NR == FNR { count[$1 " " $2] += $3; tries += $2 == "-" ? 0 : $3; next }
        !seen[$1]++ { functions++ } !count[$1 " " $2] { print "not tried: " $1 " with NULL as " $2; bad = 1 }
        END { print functions " functions; a buffer was NULL " tries " times"; exit bad || !functions }' "$1/counts" "$1/buffers"
}

# All programs, and the counts: as run_empty.
run_all_empty() {
    local folder=$1 program
    shift
    rm -f "$folder/counts"
    for program in "${empty_programs[@]}"; do
        run_empty "$folder" "$program" "$@" || return
    done
    check_empty_counts "$folder"
}

# Runs a program in which a function of faults.c has the place of a true one: the folder, the number of the fault, the
# function, the program, and how C is compiled. The fault is compiled as the archives are, without sanitizers.
run_empty_fault() {
    local folder=$1 fault=$2 function=$3 program=$4 archive
    shift 4
    gcc -std=c99 -O2 -Wall -Wextra -Werror -Iinclude -Itests/empty "-DFAULT=$fault" -c tests/empty/faults.c -o "$folder/fault.o" || return
    for archive in "$folder"/lib*.a; do
        objcopy "--weaken-symbol=under_$function" "$archive" || return
    done
    run_empty "$folder" "$program" '' "$@"
}

# Each fault is found, by what is said of it: the folder, and how C is compiled.
find_empty_faults() {
    local folder=$1 fault function program said
    while read -r fault function program said; do
        if run_empty_fault "$folder" "$fault" "$function" "$program" "${@:2}" >"$folder/said" 2>&1 || ! grep -qF -- "$said" "$folder/said"; then
            echo "fault $fault of tests/empty/faults.c is not found; the program says:"
            cat "$folder/said"
            return 1
        fi
    done <<-'END'
	1 draugsten_view_start tests/locations draugsten_view_start with empty area: the answer or a buffer is not the same with NULL
	2 draugsten_tallies_append tests/intakes draugsten_tallies_append with empty record: the answer or a buffer is not the same with NULL
	3 draugsten_read_indices examples/session draugsten_read_indices with empty out: a byte is written at its pointer
	4 draugsten_lookup tests/locations draugsten_lookup with empty fixed: memcpy is given NULL
	5 draugsten_tallies_recount tests/tallies SEGV on unknown address 0x000000000000
	END
}
