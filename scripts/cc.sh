# Sourced after kit.sh by the scripts that build C: a compiler for x86-64, which the library is for, and an emulator
# where the processor is another. Sets cc, cxx, static, emulator and warnings; installs what is missing where it may.

# Installs packages where a command is missing.
ensure() { # COMMAND PACKAGE...
    command -v "$1" >/dev/null 2>&1 && return
    missing=$1
    shift
    if [ "$(id -u)" -ne 0 ] || ! command -v apt-get >/dev/null 2>&1; then
        echo "${0##*/}: $missing is missing; on Debian: apt-get install $*" >&2
        exit 1
    fi
    echo "${0##*/}: $missing is missing, so $* will be installed" >&2
    { apt-get update && DEBIAN_FRONTEND=noninteractive apt-get install -y --no-install-recommends "$@"; } >&2
}

emulator=
static=
case $(uname -m) in
x86_64)
    cc=gcc cxx=g++
    ensure gcc gcc libc6-dev
    ensure g++ g++
    ;;
*)
    cc=x86_64-linux-gnu-gcc cxx=x86_64-linux-gnu-g++ emulator=qemu-x86_64
    # static, since there is no x86-64 loader to be found at its place
    static=-static
    ensure $cc gcc-x86-64-linux-gnu libc6-dev-amd64-cross
    ensure $cxx g++-x86-64-linux-gnu
    ensure $emulator qemu-user
    ;;
esac

warnings='-Wall -Wextra -Wpedantic -Werror'

# A C program, of C99 and without a warning.
compile() { # OUT WORDS
    out=$1
    shift
    # shellcheck disable=SC2086
    $cc -std=c99 -O2 $warnings $static "$@" -o "$out"
}
