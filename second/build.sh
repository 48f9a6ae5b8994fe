# Builds the second program beside the proved library. To be read by a shell in the repository's folder:
#     . second/build.sh; second_run compare
# The proved library is x86-64 code, so on another processor the second program is built for x86-64 too (tools/machine.sh).
second_features="lines,doubles,rows,explain,tables,nation,texts"
# the longest first, since the gate runs two at a time
comparisons="compare_nation compare_lines compare_rows compare_texts compare_doubles compare_raised compare compare_explain compare_crops compare_sheets fenced compare_tables"

. tools/machine.sh

# the compiler that has a standard library for both processors, where two are needed
second_rustc=rustc
[ "$(uname -m)" = x86_64 ] || second_rustc=/usr/bin/rustc

second_build() {
    local door=$PWD/target/staticlib target=x86_64-unknown-linux-gnu program
    tools/library || return 1
    # the programs themselves, for compare_sheets and compare_nation: their commands lay them in target/bin
    for program in sheets explain nation; do
        ./$program examples/day.return >/dev/null || return 1
    done
    # for the benchmark alone
    $machine_cc -O3 -fPIC -c second/plain_returns.c -o target/plain_returns.o || return 1
    export NILOFERQ_PLAIN=$PWD/target/plain_returns.o
    if [ "$(uname -m)" = x86_64 ]; then
        command -v cargo >/dev/null || machine_install cargo rustc
        (cd second && NILOFERQ_LIB=$door cargo build --release --quiet --features "$second_features")
        second_folder=second/target/release
        return
    fi
    # Debian's rustc has a standard library for x86-64 beside its own
    [ -d "/usr/lib/rustlib/$target" ] || machine_install rustc-web libstd-rust-web-dev:amd64
    command -v cargo >/dev/null || machine_install cargo-web
    (cd second && NILOFERQ_LIB=$door RUSTC=$second_rustc CARGO_TARGET_X86_64_UNKNOWN_LINUX_GNU_LINKER=$machine_cc \
        cargo build --release --quiet --features "$second_features" --target "$target")
    second_folder=second/target/$target/release
}

second_run() { # PROGRAM [ARGUMENT..]
    local program=$1
    shift
    NILOFERQ_SHEETS=$PWD/target/bin/sheets NILOFERQ_EXPLAIN=$PWD/target/bin/explain NILOFERQ_NATION=$PWD/target/bin/nation \
        NILOFERQ_RUNNER=$machine_runner $machine_runner "$second_folder/$program" "$@"
}

# The second program's own tests. They need no library, so they are built for this processor and run without an emulator.
second_test() {
    (cd second && NILOFERQ_LIB= RUSTC=$second_rustc cargo test --lib --quiet)
}

second_build
