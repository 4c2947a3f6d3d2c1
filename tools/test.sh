#!/usr/bin/env bash
# The gate: proves every crate, then tests the proved libraries against the reference.
#   tools/test.sh           all of it
#   tools/test.sh soak      only the differential tests, with many more cases and another seed
#   tools/test.sh bench     the benchmark
#   tools/test.sh program   proves and builds the judging program, target/bin/judge
#   tools/test.sh libraries proves and builds what C programs link, target/staticlib/lib*.a
#   tools/test.sh samples   writes the sample files anew
#   tools/test.sh pins      writes anew what tests/documents keeps of contracts, theorems and definitions
#   tools/test.sh crates    writes crates.txt anew, from what the crates name
# Each part runs whatever became of the ones before it. The very last line is 'N passed, M failed',
# and the status is 0 only if M is 0.
set -uo pipefail
cd "$(dirname "${BASH_SOURCE[0]}")/.." || exit 1

# Nothing but what was just proved is tested, and builds write below target/ only; rt's own work stands
# in out/ of each crate.
unset PELZHONDY_TARGET
export CARGO_TERM_COLOR=never CARGO_HOME="$PWD/target/cargo"
# Those that C programs link: libNAME.a is made of the crate NAME_c.
libraries='workbench receiver'

passed=0
failed=0
log=$(mktemp) || exit 1
trap 'rm -f "$log"' EXIT

# Installs the Debian packages of the commands that are missing.
install_missing() {
    local pair wanted=''
    for pair in make:make 'gcc:gcc libc6-dev' ar:binutils cargo:cargo rustc:rustc; do
        command -v "${pair%%:*}" >/dev/null 2>&1 || wanted="$wanted ${pair#*:}"
    done
    [ -n "$wanted" ] || return 0
    echo "== installing$wanted"
    export DEBIAN_FRONTEND=noninteractive
    apt-get update
    # shellcheck disable=SC2086
    apt-get install -y --no-install-recommends $wanted
}

# Runs a part: shows its output and keeps it in $log, leaves its status in $status.
part() { # NAME COMMAND...
    local name=$1 started=$SECONDS
    shift
    echo "== $name"
    "$@" 2>&1 | tee "$log"
    status=${PIPESTATUS[0]}
    echo "== $name: status $status, $((SECONDS - started)) s"
}

# Adds the counts of the part that ran last. With no count, or no test at all, it is one failure,
# and so it is if it failed while all its tests passed.
add() { # [PASSED FAILED]
    local p=$((10#${1:-0})) f=$((10#${2:-0}))
    if [ $((p + f)) -eq 0 ] || { [ "$status" -ne 0 ] && [ "$f" -eq 0 ]; }; then
        f=$((f + 1))
    fi
    passed=$((passed + p))
    failed=$((failed + f))
}

# The counts of a last line '<prefix>N passed, M failed'.
last_line_counts() { # PREFIX
    tail -n 1 "$log" | sed -n -E "s/^$1([0-9]+) passed, ([0-9]+) failed\$/\1 \2/p"
}

# The counts of all 'test result:' lines of cargo test, summed up.
cargo_test_counts() {
    sed -n -E 's/^test result: .* ([0-9]+) passed; ([0-9]+) failed;.*/\1 \2/p' "$log" |
        awk '{ p += $1; f += $2 } END { if (NR) print p, f }'
}

rust() { # VERB WORDS...
    local verb=$1
    shift
    cargo "$verb" --release --offline --locked --manifest-path tests/Cargo.toml \
        --target-dir target/rust "$@"
}

is_listed() { # CRATE
    grep -Eq "^[[:space:]]*$1([[:space:]]+staticlib)?[[:space:]]*:" crates.txt
}

# rt ci proves over must-fail edits that are bad, and says how many on its line 'rt: ok'. Here each of
# them is a failure, and so is it if it passed without such a line.
add_bad_edits() {
    local ok bad
    ok=$(grep '^rt: ok' "$log" | tail -n 1)
    if [ "$status" -eq 0 ] && [ -z "$ok" ]; then
        echo "rt ci passed without a line 'rt: ok'"
        failed=$((failed + 1))
    fi
    bad=$(printf '%s\n' "$ok" | sed -n -E 's/.*, ([0-9]+) bad(;.*)?$/\1/p')
    if [ "${bad:-0}" -gt 0 ]; then
        echo "bad must-fail edits: $bad"
        failed=$((failed + bad))
    fi
}

# The archive of a library's crate, under the library's name.
static_library() { # LIBRARY
    local made="out/lib${1}_c.a" archive="target/staticlib/lib$1.a"
    mkdir -p target/staticlib && rm -f "$archive" &&
        (cd "crates/${1}_c" && rm -f "$made" && rt lib) &&
        cp "crates/${1}_c/$made" "$archive"
}

static_libraries() {
    local library
    for library in $libraries; do
        if is_listed "${library}_c"; then
            part "rt lib: $library" static_library "$library"
            [ "$status" -eq 0 ] || failed=$((failed + 1))
        fi
    done
}

# The judging program as it stands in its crate, where rt ci leaves it, or rt run.
take_program() {
    mkdir -p target/bin && rm -f target/bin/judge && cp crates/judge/out/judge target/bin/judge
}

# Without input it prints nothing.
program() {
    rm -f target/bin/judge
    (cd crates/judge && rt run </dev/null) && take_program
}

differential_tests() {
    part 'building the differential tests' rust build -p differential -p benchmark
    if [ "$status" -ne 0 ]; then
        failed=$((failed + 1))
        return
    fi
    part 'differential tests' target/rust/release/differential
    # shellcheck disable=SC2046
    add $(last_line_counts 'differential: ')
}

c_compiler() {
    cc -std=c99 -Wall -Wextra -Wpedantic -Werror -Iinclude "$@"
}

# The routines that an archive defines.
defined() { # LIBRARY
    [ ! -f "target/staticlib/lib$1.a" ] ||
        nm -g --defined-only -P "target/staticlib/lib$1.a" | sed -n 's/^\(pelzhondy_[a-z_]*\) .*/\1/p'
}

# Each header compiles by itself, and those of the libraries declare all that these define.
check_headers() {
    local header library routine
    for header in include/*.h; do
        c_compiler -fsyntax-only -x c "$header" || return 1
    done
    for library in $libraries; do
        for routine in $(defined "$library"); do
            if ! grep -q "^uint64_t $routine(" "include/pelzhondy_$library.h"; then
                echo "pelzhondy_$library.h does not declare $routine"
                return 1
            fi
        done
    done
}

# The C host prints what it is expected to.
check_host() {
    c_compiler examples/receiver/host.c target/staticlib/libreceiver.a -o target/host &&
        target/host >target/host.txt && diff examples/receiver/expected.txt target/host.txt
}

# The explainer prints what it is expected to, of each sample.
check_explain() {
    local file
    c_compiler examples/workbench/explain.c target/staticlib/libworkbench.a -o target/explain ||
        return 1
    for file in samples/*.bin; do
        echo "${file##*/}:"
        target/explain <"$file"
    done >target/explain.txt
    diff examples/workbench/expected.txt target/explain.txt
}

# Every routine of the tester's library, called from C, prints what it is expected to.
check_tour() {
    c_compiler examples/workbench/tour.c target/staticlib/libworkbench.a -o target/tour &&
        target/tour >target/tour.txt && diff examples/workbench/expected-tour.txt target/tour.txt
}

# The stores of step and drain, watched one by one. Signals and pages are not in C99.
check_stores() {
    c_compiler -std=gnu99 -O1 tests/stores/stores.c target/staticlib/libreceiver.a -o target/stores &&
        target/stores
}

c_tests() {
    local check
    for check in check_headers check_host check_explain check_tour check_stores; do
        part "C: $check" "$check"
        add $((status == 0)) $((status != 0))
    done
}

case "${1:-}" in
'')
    install_missing
    # First, since it takes no time.
    part 'tests of documents and edits' rust test -p documents
    # shellcheck disable=SC2046
    add $(cargo_test_counts)
    part 'rt ci' rt ci
    # shellcheck disable=SC2046
    add $(last_line_counts '')
    add_bad_edits
    # As rt ci built it.
    part 'the judging program' take_program
    [ "$status" -eq 0 ] || failed=$((failed + 1))
    static_libraries
    part 'tests of the reference and the turns' rust test -p reference -p fast -p benchmark
    # shellcheck disable=SC2046
    add $(cargo_test_counts)
    differential_tests
    c_tests
    ;;
soak)
    export PELZHONDY_CASES="${PELZHONDY_CASES:-20}" PELZHONDY_SEED="${PELZHONDY_SEED:-$(date +%s)}"
    part 'rt run: judge' program
    [ "$status" -eq 0 ] || failed=$((failed + 1))
    static_libraries
    differential_tests
    ;;
bench)
    # Without the solver there is one table less.
    if ! command -v z3 >/dev/null 2>&1; then
        echo '== installing z3'
        export DEBIAN_FRONTEND=noninteractive
        apt-get update
        apt-get install -y --no-install-recommends z3
    fi
    static_libraries
    rust build -p benchmark && target/rust/release/benchmark
    exit
    ;;
program)
    program
    exit
    ;;
libraries)
    static_libraries
    [ "$failed" -eq 0 ]
    exit
    ;;
samples)
    rust run -p reference --bin samples -- samples
    exit
    ;;
pins)
    rust run -p documents --bin pins
    exit
    ;;
crates)
    rust run -p documents --bin crates
    exit
    ;;
*)
    echo "usage: tools/test.sh [soak | bench | program | libraries | samples | pins | crates]" >&2
    exit 2
    ;;
esac

echo "== all: $SECONDS s"
echo "$passed passed, $failed failed"
[ "$failed" -eq 0 ]
