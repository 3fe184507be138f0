# shellcheck shell=bash
# What building for Power and testing it share. To be sourced behind tools/build.sh.

# The targets by the name of their folder: each has a compiler NAME-linux-gnu-gcc beside clang, and an emulator.
targets=(powerpc64 powerpc64le)
# shellcheck disable=SC2034
declare -A emulators=([powerpc64]=qemu-ppc64 [powerpc64le]=qemu-ppc64le)
declare -A libraries=([powerpc64]=libc6-dev-ppc64-cross [powerpc64le]=libc6-dev-ppc64el-cross)

# The Debian packages that are missing, one to a line: each brings the program behind it, or a C library for tests.
missing_packages() {
    local target program package
    while read -r program package; do
        command -v "$program" >/dev/null || echo "$package"
    done <<<'clang-19 clang-19
qemu-ppc64 qemu-user
qemu-ppc64le qemu-user
powerpc64-linux-gnu-gcc gcc-powerpc64-linux-gnu
powerpc64le-linux-gnu-gcc gcc-powerpc64le-linux-gnu'
    for target in "${targets[@]}"; do
        ! command -v "$target-linux-gnu-gcc" >/dev/null ||
            [[ $("$target-linux-gnu-gcc" -print-file-name=libc.a) == */* ]] || echo "${libraries[$target]}"
    done
}

# Ends where a package is missing, and names all that are.
need_packages() {
    local missing
    missing=$(missing_packages | sort -u | paste -sd' ')
    [[ -z $missing ]] || fail "for Power these Debian packages are missing: $missing; install them by: apt-get install $missing"
    need python3 'install python3'
}
