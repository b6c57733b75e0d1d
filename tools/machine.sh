# machine.sh, to be sourced: how this machine compiles and runs programs for x86-64,
# which the archive libtawinrak.a and the program cuts are made for. Another machine needs a kit
# that has an emulator for it, in on/MACHINE/toolchain.
#
#   CC             compiles C for x86-64 (programs are linked with -static)
#   AR, NM         makes an archive of such objects; lists the symbols of one
#   RUN            the words before a static x86-64 program; empty on x86-64
#   RUN_PROGRAM    the words before a program that rt has linked; empty on x86-64
#   EMULATED       yes where x86-64 programs run under the kit's emulator, else no
#   need           installs Debian packages if a command is missing
#   need_compiler  installs CC, AR and NM if they are missing

need() { # COMMAND PACKAGE...
    if command -v "$1" >/dev/null 2>&1; then return 0; fi
    missing=$1
    shift
    if [ "$(id -u)" -ne 0 ]; then
        echo "$missing is missing, and only root can install it: apt-get install $*" >&2
        return 1
    fi
    echo "$missing is missing: installing the packages that have it" >&2
    if ! { apt-get -qq update && DEBIAN_FRONTEND=noninteractive apt-get -qq install -y --no-install-recommends "$@"; } >&2; then
        echo "cannot install $*" >&2
        return 1
    fi
}

# The folder of the Rattle kit.
kit_home() {
    if [ -n "${RATTLE_HOME:-}" ]; then
        echo "$RATTLE_HOME"
    else
        dirname "$(dirname "$(readlink -f "$(command -v rt)")")"
    fi
}

case $(uname -m) in
x86_64)
    EMULATED=no CC=cc AR=ar NM=nm RUN='' RUN_PROGRAM=''
    need_compiler() { need cc gcc libc6-dev; }
    ;;
*)
    kit_tools=$(kit_home)/on/$(uname -m)/toolchain
    EMULATED=yes CC=x86_64-linux-gnu-gcc AR=x86_64-linux-gnu-ar NM=x86_64-linux-gnu-nm
    RUN=$kit_tools/bin/qemu-x86_64
    RUN_PROGRAM="$RUN $kit_tools/lib/ld-linux-x86-64.so.2 --library-path $kit_tools/lib"
    need_compiler() { need x86_64-linux-gnu-gcc gcc-x86-64-linux-gnu libc6-dev-amd64-cross; }
    ;;
esac
