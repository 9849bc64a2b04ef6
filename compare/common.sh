# What the scripts of compare/ and examples/ share: messages, the proved library, the compiler, the emulator. Sourced with `me` set to
# the script's name and `root` to the repository's folder.

out=$root/target/compare

say() { printf '%s: %s\n' "$me" "$*" >&2; }
die() {
    say "$@"
    exit 2
}

# The sum of files' contents and of further words: what was built from them is built again only when it changes.
sum_of() { # FILE.. -- WORD..
    local files=()
    while [ $# -gt 0 ] && [ "$1" != -- ]; do
        files+=("$1")
        shift
    done
    { sha256sum "${files[@]}" | cut -d' ' -f1 && printf '%s\n' "$@"; } | sha256sum | cut -d' ' -f1
}

# Whether a file is there and its note says that it was made from this sum.
made_from() { # FILE SUM
    [ -e "$1" ] && [ -e "$1.sum" ] && [ "$(cat "$1.sum")" = "$2" ]
}

# One script builds at a time, the others wait.
one_at_a_time() {
    mkdir -p "$out" || die "can't write to $out"
    if command -v flock >/dev/null; then
        exec 9>"$out/lock"
        flock 9
    fi
}
let_others() { if command -v flock >/dev/null; then exec 9>&-; fi; }

# Packages of Debian's where a command is missing: installed if we may.
install_for() { # COMMAND PACKAGE..
    local command=$1
    shift
    if command -v "$command" >/dev/null; then return; fi
    if [ "$(id -u)" -ne 0 ] || ! command -v apt-get >/dev/null; then
        die "there is no command '$command' on this machine. On Debian it is installed with: apt-get install $*"
    fi
    say "there is no command '$command': installing from Debian's packages: $*"
    { apt-get update && DEBIAN_FRONTEND=noninteractive apt-get install -y "$@"; } >"$out/install.log" 2>&1 ||
        die "installing $* failed: $out/install.log says why"
    command -v "$command" >/dev/null || die "$* is installed, but there is still no command '$command'"
    say "installed $*"
}

# The proved library, in `library`: that of MITTENCREST_LIBRARY, or the repository's, proved and built where it isn't there or the code
# is another.
find_library() {
    if [ -n "${MITTENCREST_LIBRARY-}" ]; then
        library=$MITTENCREST_LIBRARY
        [ -r "$library" ] || die "can't read $library, which MITTENCREST_LIBRARY names"
        return
    fi
    library=$root/crates/capi/out/libcapi.a
    local note=$out/libcapi sum log=$out/library.log
    sum=$(cd "$root" && find crates crates.txt -name out -prune -o -type f \( -name '*.rt' -o -name '*.antt' -o -name crates.txt \) -print0 | sort -z |
        xargs -0 sha256sum | sha256sum)
    if [ -e "$library" ] && made_from "$note" "$sum"; then return; fi
    command -v rt >/dev/null || die "the Rattle kit isn't on this machine: no command 'rt'. It is needed to prove and build the library (README.md says which kit); MITTENCREST_LIBRARY may name one that was built elsewhere"
    say "proving and building the library; this takes some minutes"
    (cd "$root/crates/capi" && rt lib) >"$log" 2>&1 || die "the library could not be built: $log says why"
    [ -e "$library" ] || die "the library was proved, but $library isn't there: $log says more"
    printf '%s\n' "$sum" >"$note.sum"
    touch "$note"
}

# The C compiler for x86-64, in `cc`, and what runs its programs, in `runner`: nothing, or Debian's emulator.
find_compiler() {
    runner=()
    if [ "$(uname -m)" = x86_64 ]; then
        install_for gcc gcc libc6-dev
        cc=(gcc)
        return
    fi
    install_for x86_64-linux-gnu-gcc gcc-x86-64-linux-gnu libc6-dev-amd64-cross
    # linked with all its libraries, so that the emulator needs none
    cc=(x86_64-linux-gnu-gcc -static)
    install_for qemu-x86_64 qemu-user
    runner=(qemu-x86_64)
}

# The Rust compiler, at least of this version. Debian's packages are older.
find_rustc() { # VERSION
    command -v rustc >/dev/null || die "there is no command 'rustc' on this machine. Rust $1 or newer is needed (https://rustup.rs)"
}
