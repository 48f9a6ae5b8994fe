# How to compile C for the proved library's processor, x86-64 Linux, and run it here. To be read by a shell:
#     . tools/machine.sh; $machine_cc program.c ..; $machine_runner ./program
# On another processor that is a cross compiler and an emulator, installed from Debian's packages where they are missing.
machine_cc=cc
machine_runner=""

machine_install() { # PACKAGE..
    [ "$(id -u)" = 0 ] || { echo "this needs Debian's packages $*, and only root can install them" >&2; return 1; }
    command -v apt-get >/dev/null || { echo "this needs Debian's packages $*, and there is no apt-get to install them" >&2; return 1; }
    echo "installing Debian's packages $*" >&2
    dpkg --add-architecture amd64
    apt-get update -qq >&2
    DEBIAN_FRONTEND=noninteractive apt-get install -y -qq --no-install-recommends "$@" >/dev/null
}

if [ "$(uname -m)" != x86_64 ]; then
    machine_cc=x86_64-linux-gnu-gcc
    machine_runner=qemu-x86_64
    if ! { command -v $machine_cc && command -v $machine_runner && [ -e /lib64/ld-linux-x86-64.so.2 ]; } >/dev/null; then
        machine_install gcc-x86-64-linux-gnu libc6-dev-amd64-cross qemu-user libc6:amd64
    fi
fi
