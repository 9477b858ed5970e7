# Sourced by make-dist, build, add-processor and test-kit, peer/figures/run and tests/programs/run: which tools make and run x86-64 programs on this
# machine, and those for another processor; and which programs there are.
# shellcheck shell=sh disable=SC2034

PROGRAMS="bench replayer sheetdump sheetdiff"

if [ "$(uname -m)" = x86_64 ]; then
    NATIVE=yes
    CC=gcc CXX=g++ NM=nm
    PACKAGES="gcc g++ libc6-dev binutils"
else
    NATIVE=no
    CC=x86_64-linux-gnu-gcc CXX=x86_64-linux-gnu-g++ NM=x86_64-linux-gnu-nm
    PACKAGES="gcc-x86-64-linux-gnu g++-x86-64-linux-gnu libc6-dev-amd64-cross qemu-user"
fi

fail() {
    echo "kit: $*" >&2
    exit 1
}

# need TOOL...: installs the Debian packages if one of the tools is missing.
need() {
    for tool in "$@"; do
        command -v "$tool" >/dev/null 2>&1 && continue
        echo "kit: $tool is missing, installing $PACKAGES" >&2
        # shellcheck disable=SC2086 # the packages are several words
        { apt-get update && DEBIAN_FRONTEND=noninteractive \
            apt-get install -y --no-install-recommends $PACKAGES; } >&2 \
            || fail "could not install $PACKAGES"
        break
    done
    for tool in "$@"; do
        command -v "$tool" >/dev/null 2>&1 || fail "$tool is missing"
    done
}

need_compilers() {
    need "$CC" "$CXX" "$NM"
    need_emulator
}

# What `run` needs: nothing on x86-64.
need_emulator() {
    [ "$NATIVE" = no ] || return 0
    need "$CC" qemu-x86_64
    # The C library beside the cross compiler, not one of another version.
    LIBS=$(dirname "$("$CC" -print-file-name=libc.so.6)")
}

# Checkers run on the processor at hand, whatever the kit's own is.
need_checkers() {
    PACKAGES="gcc libc6-dev valgrind"
    need gcc valgrind
}

# run PROGRAM ARGUMENT...: natively, or emulated with the cross C library; by the words in AS_NOBODY, if there are any. After use_tools_of it is
# a program for that other processor.
AS_NOBODY=
run() {
    # shellcheck disable=SC2086 # several words, or none
    if [ -n "${OTHER_RUN+set}" ]; then
        $AS_NOBODY $OTHER_RUN "$@"
    elif [ "$NATIVE" = yes ]; then
        $AS_NOBODY "$@"
    else
        $AS_NOBODY qemu-x86_64 -L "$LIBS/.." -E "LD_LIBRARY_PATH=$LIBS" "$@"
    fi
}

# use_tools_of MACHINE: OTHER_CC, OTHER_NM and OTHER_RUN, the compiler, nm and emulator for another processor than the product's.
use_tools_of() {
    if [ "$1" = "$(uname -m)" ]; then
        OTHER_CC=gcc OTHER_NM=nm OTHER_RUN=
        PACKAGES="gcc libc6-dev binutils"
    else
        OTHER_CC=$1-linux-gnu-gcc OTHER_NM=$1-linux-gnu-nm
        OTHER_RUN="qemu-$1 -L /usr/$1-linux-gnu -E LD_LIBRARY_PATH=/usr/$1-linux-gnu/lib"
        libc=$1
        [ "$1" != aarch64 ] || libc=arm64 # Debian's name
        PACKAGES="gcc-$1-linux-gnu libc6-dev-$libc-cross qemu-user"
    fi
}
