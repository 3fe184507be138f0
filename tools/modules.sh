# shellcheck shell=bash
# Keeps the LLVM module of a proved library, as text: target/power/NAME.ll. To be sourced after tools/build.sh; `room` has
# to name a folder for temporary files.
#
# `rt lib` proves a static library, lowers it to one LLVM module and hands that to the kit's clang, all in one run, which
# ends with 0 only if everything is proved. It is run here over a copy of the kit's folder (links), whose clang keeps
# the module before it goes on. So what is kept is the very module of the archive for x86-64, before any optimisation; a
# run that ends otherwise leaves none.

# Makes a link to each thing in a folder that is not there yet.
link_others() {
    local path
    for path in "$1"/*; do
        [[ -e $2/${path##*/} ]] || ln -s "$path" "$2/"
    done
}

# Copies the kit as links, with a clang that keeps each module that it is given. `clang` is then the kit's own. rt looks for the
# kit where its own files lie, so these are copied.
copy_kit() {
    local kit
    kit=$(cd "$(dirname "$(readlink -f "$(command -v rt)")")/.." && pwd -P)
    clang=$kit/toolchain/bin/clang
    [[ -x $clang && -e $kit/bin/rtlib.py ]] || fail "the kit at $kit has no toolchain/bin/clang or no bin/rtlib.py; this command knows the kits that have both"
    # shellcheck disable=SC2154
    [[ ! -d $room/kit ]] || return 0
    mkdir -p "$room/kit/bin" "$room/kit/toolchain/bin"
    cp "$kit"/bin/{rt,rtlib.py} "$room/kit/bin/" || fail "the kit at $kit cannot be copied to $room"
    cat >"$room/kit/toolchain/bin/clang" <<-END
	#!/usr/bin/env bash
	for word; do case \$word in *.bc) cp "\$word" "\$(mktemp "$room/modules/XXXXXX.bc")" || exit 1 ;; esac; done
	exec "$clang" "\$@"
	END
    chmod +x "$room/kit/toolchain/bin/clang"
    link_others "$kit/toolchain/bin" "$room/kit/toolchain/bin"
    link_others "$kit/toolchain" "$room/kit/toolchain"
    link_others "$kit/bin" "$room/kit/bin"
    link_others "$kit" "$room/kit"
}

# Has a library proved and lowered, and keeps its module as text. The same run writes the archive for x86-64, of the same module.
make_module() {
    local crate=$1 file=$2 archive modules
    archive=$(archive_of "$crate")
    is_new "$file" && return
    copy_kit
    say "building $file, the module of $crate; crates that are not proved yet take up to some minutes each"
    rm -rf "$room/modules" "$file" "$file.built" "$archive" "$archive.built"
    mkdir -p "$room/modules" "$(dirname "$file")"
    touch "$file.begun"
    PATH=$room/kit/bin:$PATH in_crate lib "$crate" "$room/module.log" || return
    grep -q '^logic=proved .*target=x86_64-unknown-linux-gnu' "$room/module.log" || return
    modules=("$room"/modules/*.bc)
    if [[ ${#modules[@]} -ne 1 || ! -e ${modules[0]} ]]; then
        echo "the kit's clang was given ${#modules[@]} modules, and not one" >>"$room/module.log"
        return 1
    fi
    "$clang" -S -emit-llvm -Xclang -disable-llvm-passes -x ir "${modules[0]}" -o "$room/module.ll" 2>>"$room/module.log" || return
    touch -r "$file.begun" "$archive.built"
    mv "$room/module.ll" "$file" && mv "$file.begun" "$file.built"
}

# Keeps the modules of libraries; their archives for x86-64 are built with them.
build_modules() {
    local crate
    need rt 'install the Rattle kit and add its folder bin to the PATH'
    for crate; do
        locked make_module "$crate" "target/power/$crate.ll" && continue
        cat "$room/module.log" >&2 || true
        fail "$crate has no proved module; what rt said stands above"
    done
}
