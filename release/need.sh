# shellcheck shell=sh
# Read by the scripts of this folder (. release/need.sh):
#
#   need TOOL..     ends with status 1 where a tool is missing, and names the Debian package that has it
#   fail WORD..     says why, and ends with status 1
#   join OBJECT PROGRAM [FLAG..]
#                   links the object of the program with glue.c by $compiler, with further flags of it
#   value KEY FILE  what a file of lines `key: value` has for the key; nothing where it has no such line

fail() {
    echo "release/${0##*/}: $*" >&2
    exit 1
}

need() {
    for tool; do
        if command -v "$tool" >/dev/null 2>&1; then
            continue
        fi
        case $tool in
        cc) package='gcc libc6-dev' ;;
        readelf) package=binutils ;;
        dpkg-deb) package=dpkg ;;
        rt) fail "the command rt of the Rattle kit is missing on PATH" ;;
        sha256sum) package=coreutils ;;
        xargs | find) package=findutils ;;
        xz) package=xz-utils ;;
        aarch64-linux-gnu-gcc) package='gcc-aarch64-linux-gnu libc6-dev-arm64-cross' ;;
        qemu-aarch64-static) package=qemu-user-static ;;
        *) package=$tool ;;
        esac
        fail "the command $tool is missing: on Debian it comes by apt-get install $package"
    done
}

# $compiler may have words of its own. -pthread is for a C library before 2.34, which has threads in a file of their own.
join() {
    object=$1
    joined=$2
    shift 2
    # shellcheck disable=SC2086,SC2154
    $compiler -O2 -pthread -Wl,--gc-sections "$@" -o "$joined" "$object" release/glue.c
}

value() {
    sed -n "s/^$1: //p" "$2"
}
