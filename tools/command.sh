# What all commands share: ./sheets, ./explain, ./nation and those of examples/. A command, which has `set -euo pipefail`, reads this file and takes its steps in this order:
#     home=$(dirname "$(readlink -f "$0")")             # the repository's folder, by a symlink to the command too
#     . "$home/tools/command.sh"
#     begin sheets 'usage: ./sheets FILE ..' "$@"       # --help, -h and --version end here
#     [ $# = 1 ] || wrong_use                           # then all else that can be said before the minutes that proving takes
#     can_read "$1"
#     run_proved sheets "$1"                            # or run_c, or run_c_with_library: proves and compiles what has changed, then runs
#
# One rule of status, which README.md has and examples/commands_test tries. 0: what was asked for is printed or made; for sheets, explain and judge a
# refusal is that. 1: it was not made whole: a refused return where a picture or a file was asked for, an input not read, an output not written, or
# the command itself could not be made. 2: wrong use.

say() { echo "$command: $*" >&2; }
fail() { say "$*"; exit 1; }
wrong_use() { printf '%s\n' "$usage" >&2; exit 2; }

# Put under a prefix by tools/install, ready to run: there is nothing to prove or to compile. The file has the version.
is_installed() { [ -f "$home/installed" ]; }

begin() { # COMMAND USAGE WORD..
    command=$1 usage=$2
    ! is_installed || usage=$(installed_usage)
    case ${3-} in
        -h | --help) answer "$usage" ;;
        --version) answer "$command: $(version)" ;;
    esac
}

# The usage of an installed command, which is called by its name alone and has its pages beside it.
installed_usage() {
    local pages text=$usage
    pages=$(readlink -m "$home/../../share/doc/niloferq")
    text=${text//" ./"/" "}
    text=${text//" examples/"/" "}
    text=${text//" The first run proves and compiles, some minutes."/}
    text=${text//"The first run proves and compiles, some minutes. "/} # where a line begins with it
    printf '%s\n' "${text//"docs/"/"$pages/"}"
}

answer() { # TEXT
    printf '%s\n' "$1" 2>/dev/null || fail "cannot write standard output"
    exit 0
}

# The header's version, and the commit where this is a clone.
version() {
    local header commit
    ! is_installed || { cat "$home/installed"; return; }
    header=$(sed -n 's/^#define NILOFERQ_VERSION \([0-9]*\).*/\1/p' "$home/include/niloferq.h")
    commit=$(git -C "$home" describe --always --dirty='-changed' --abbrev=12 --exclude='*' 2>/dev/null) || commit=unknown
    echo "header version $header, commit $commit"
}

# A word for a file that is to be read: a name, a pipe, or - for standard input. A name that begins with - is written ./-name.
can_read() { # FILE
    case $1 in
        -) return 0 ;;
        -*) wrong_use ;;
    esac
    [ -e "$1" ] || fail "cannot read $1: No such file or directory"
    [ ! -d "$1" ] || fail "cannot read $1: Is a directory"
    [ -r "$1" ] || fail "cannot read $1: Permission denied"
}

# A word for a file that is to be written: what stands there may be replaced, and its folder is there.
can_write() { # FILE
    case $1 in
        -) return 0 ;;
        -*) wrong_use ;;
    esac
    [ ! -e "$1" ] || [ -f "$1" ] || fail "cannot write $1: it is there and is not an ordinary file"
    [ -d "$(dirname "$1")" ] || fail "cannot write $1: No such file or directory"
    [ -w "$(dirname "$1")" ] || fail "cannot write $1: Permission denied"
}

# ---- proving and compiling ----

# How many crates one stands on, itself among them: crates.txt has each crate below those it stands on.
crates_needed() { # CRATE
    tac "$home/crates.txt" | awk -v crate="$1" '{ sub(":", "", $1) } $1 == crate || $1 in needed { n++; for (i = 2; i <= NF; i++) needed[$i] } END { print n }'
}

# A line on standard error for each crate that `rt` says it has proved: first it names the crate, and then that the logic was.
tell_progress() { # CRATE
    local line crate="" proved=0 all
    all=$(crates_needed "$1")
    while IFS= read -r line; do
        case $line in
            "crate "*": modules "*) crate=${line#crate } crate=${crate%%:*} ;;
            "logic=proved "*)
                proved=$((proved + 1))
                say "$proved of $all: $crate proved"
                ;;
            "rt: waiting for another rt "*) say "${line#rt: }" ;;
        esac
    done
}

# Made after the last change of a source, a file *.rt, which has the code: definitions and proofs stand in other files and are no part of what is made.
up_to_date() { # FILE
    ! is_installed || return 0
    [ -e "$1" ] && [ -z "$(find "$home/crates" -name out -prune -o -name '*.rt' -newer "$1" -print -quit)" ]
}

# rt leaves what it makes in the crate's folder, out/. These copy it whole, and only once rt has said that it is made: what was cut off is never taken.

# A program. rt runs it as well, here on no input, and then ends with its status; what rt itself says is on standard error.
make_program() { # CRATE FILE LOG
    { (cd "$home/crates/$1" && rt run </dev/null 2>&1 >/dev/null 8>&-) || true; } | tee "$3" | tell_progress "$1"
    grep -q "^rt: running out/$1;" "$3" && copy_whole "$home/crates/$1/out/$1" "$2"
}

make_archive() { # CRATE FILE LOG
    (cd "$home/crates/$1" && rt lib </dev/null 2>&1 8>&-) | tee "$3" | tell_progress "$1" && copy_whole "$home/crates/$1/out/lib$1.a" "$2"
}

# The copy has the time at which it was asked for, so that a source changed meanwhile is newer.
copy_whole() { # FILE PLACE
    mkdir -p "$(dirname "$2")" && cp "$1" "$2.$$" && touch -r "$asked" "$2.$$" && mv -f "$2.$$" "$2"
}

# Proves a crate and what it stands on, and compiles it, where a source has changed since.
prove() { # CRATE MAKE FILE: one of the two above, and what it makes
    local crate=$1 make=$2 made=$3 log=$home/target/$1.log asked=$home/target/$1.asked
    ! up_to_date "$made" || return 0
    command -v rt >/dev/null || fail "rt, the Rattle kit, is missing: it proves and compiles this the first time"
    { mkdir -p "$home/target" && exec 8>"$home/target/building"; } 2>/dev/null || fail "cannot write $home/target"
    flock -n 8 || { say "another command is proving here: waiting for it"; flock 8; }
    if ! up_to_date "$made"; then
        touch "$asked"
        say "proving and compiling what has changed; the first time this takes some minutes"
        $make "$crate" "$made" "$log" || { cat "$log" >&2; exit 1; }
    fi
    exec 8>&-
}

# The library for C, one for all commands.
make_library() { prove door_c make_archive "$home/target/staticlib/libdoor.a"; }

# The compiler and the emulator. An installed command needs the emulator alone, and that on another processor than x86-64 alone.
find_machine() {
    machine_runner=""
    if ! is_installed; then
        . "$home/tools/machine.sh"
    elif [ "$(uname -m)" != x86_64 ]; then
        machine_runner=qemu-x86_64
        command -v $machine_runner >/dev/null || fail "qemu-x86_64 is missing: this program is for x86-64, and another processor needs Debian's packages qemu-user and libc6:amd64"
    fi
}

# Compiles examples/NAME.c to target/examples, where it or what it is made of has changed.
compile() { # NAME [LIBRARY]
    local program=$home/target/examples/$1
    ! is_installed || return 0
    [ ! -x "$program" ] || [ -n "$(find "$home/examples/$1.c" "$home"/examples/*.h "$home/include" "${@:2}" -newer "$program" -print -quit)" ] || return 0
    command -v $machine_cc >/dev/null || fail "$machine_cc, a C compiler, is missing"
    mkdir -p "$home/target/examples" 2>/dev/null || fail "cannot write $home/target"
    $machine_cc -std=c11 -O2 -Wall -Wextra -Wpedantic -I"$home/include" "$home/examples/$1.c" "${@:2}" -o "$program.$$" || fail "cannot compile $1.c"
    mv "$program.$$" "$program"
}

# ---- running ----

# A proved program, on a file. It always ends with status 0 itself, and writes on standard error only when something failed. Where HAND_ON
# is named, a function, it is given the words that run the program; it may end with another status.
run_proved() { # PROGRAM FILE [HAND_ON]
    local program=$home/target/bin/$1 said status=0
    { : 3>&1; } 2>/dev/null || fail "standard output is closed"
    [ "$2" = - ] || exec <"$2" || exit 1
    prove "$1" make_program "$program" </dev/null
    find_machine </dev/null
    { said=$(${3-} $machine_runner "$program" 2>&1 >&3 3>&-) || status=1; } 3>&1
    if [ -n "$said" ]; then
        printf '%s\n' "$said" >&2
        status=1
    fi
    exit $status
}

# A program in C, from the caller's own directory, so that names mean what the caller means.
run_c() { # NAME WORD..
    find_machine </dev/null
    compile "$1"
    exec $machine_runner "$home/target/examples/$1" "${@:2}"
}

run_c_with_library() { # NAME WORD..
    make_library </dev/null
    find_machine </dev/null
    compile "$1" "$home/target/staticlib/libdoor.a"
    exec $machine_runner "$home/target/examples/$1" "${@:2}"
}
