# What set-up, test and the gate share; to be sourced at the root. `left_out` has a line for each thing that was not done because a program
# is not here.
left_out=()
# has PROGRAM WHAT: the program may be one of cargo's own, such as cargo clippy, which its --version tells.
has() { $1 --version >/dev/null 2>&1 || { left_out+=("$1 is not here: left out $2"); return 1; }; }
say_left_out() { if [ ${#left_out[@]} -eq 0 ]; then echo "left out: nothing"; else printf '%s\n' "${left_out[@]}"; fi; }
fail() { echo "$0: $*" >&2; exit 1; }

# only_help USAGE [WORD...]: the command takes no word but --help.
only_help() {
    case ${2:-} in
    '') ;;
    -h | --help) echo "$1"; exit 0 ;;
    *) echo "$1" >&2; exit 2 ;;
    esac
}

# named WHAT COMMAND...: says what is done, and then how long it took; what the command writes is shown only where it fails.
named() {
    local began=$SECONDS log
    log=$(mktemp)
    printf '%s ... ' "$1"
    if "${@:2}" >"$log" 2>&1; then
        echo "done$(passed "$log") ($((SECONDS - began)) s)"
        rm -f "$log"
    else
        echo "FAILED"
        cat "$log" >&2
        rm -f "$log"
        return 1
    fi
}
# How many tests a run of cargo's has passed, where it has any.
passed() { awk '/^test result: ok/ { sum += $4 } END { if (sum) printf ", %d tests passed", sum }' "$1"; }

# tests CRATE [OPTION...], lints CRATE [OPTION...]
tests() { RUSTFLAGS="-D warnings" cargo test --quiet --offline --manifest-path "$1/Cargo.toml" "${@:2}"; }
lints() { cargo clippy --quiet --offline --all-targets --manifest-path "$1/Cargo.toml" "${@:2}" -- -D warnings; }
# A program of tests/reference or of tests/host.
reference() { cargo run --quiet --release --offline --manifest-path tests/reference/Cargo.toml --bin "$@"; }
measure() { cargo run --quiet --release --offline --manifest-path tests/host/Cargo.toml --bin "$@"; }

# in_crate NAME COMMAND...: rt works on the crate in whose folder it is called.
in_crate() { (cd "crates/$1" && "${@:2}"); }

# prove NAME...: these libraries and what they depend on, lowest first.
prove() {
    local crates number=0 crate
    mapfile -t crates < <(reached "$@")
    echo "proving ${#crates[@]} crates; what is unchanged since it was last proved is not proved again"
    for crate in "${crates[@]}"; do
        number=$((number + 1))
        named "[$number/${#crates[@]}] $crate" in_crate "$crate" rt lib
    done
}
# The crates that are named and all that they stand on, one a line, each after those that it stands on. A line of crates.txt has what a
# crate names itself, and comes after the lines of those.
reached() {
    awk -F': *' -v wanted="$*" '
        /^[^#]/ { name[++count] = $1; sub(/ .*/, "", name[count]); knows[name[count]] = $2 }
        END {
            split(wanted, first, " ")
            for (i in first) is_wanted[first[i]] = 1
            for (i = count; i > 0; i--) if (name[i] in is_wanted) {
                split(knows[name[i]], known, " ")
                for (k in known) is_wanted[known[k]] = 1
            }
            for (i = 1; i <= count; i++) if (name[i] in is_wanted) print name[i]
        }' crates.txt
}
# below NAME...: what these crates stand on, without themselves.
below() { reached "$@" | grep -vxF "$(printf '%s\n' "$@")"; }

# The programs in target/bin. rt builds no program that it does not run: each is run on nothing, which takes no time.
programs() {
    local name
    mkdir -p target/bin
    for name in poolrun plan; do
        named "proving $name and building target/bin/$name" in_crate "$name" rt run </dev/null
        cp "crates/$name/out/$name" target/bin/
    done
}
# The programs as the gate built and ran them.
programs_of_gate() {
    mkdir -p target/bin
    cp crates/poolrun/out/poolrun crates/plan/out/plan target/bin/
}

# A stamp beside the library tells from what it was made: where that is as it was, so is the library.
library() {
    local made=target/staticlib/ramsummer.made
    if [ -f "$made" ] && [ "$(cat "$made")" = "$(library_stamp)" ]; then
        echo "the library is unchanged: target/staticlib/libramsummer.a"
        return
    fi
    rm -f "$made"
    prove $(below ramsummer)
    named "proving ramsummer and building target/staticlib/libramsummer.a" in_crate ramsummer rt lib
    mkdir -p target/staticlib
    cp crates/ramsummer/out/libramsummer.a target/staticlib/
    library_stamp >"$made"
}
# The kit, every file that is proved, and the library itself.
library_stamp() {
    {
        rt version
        find crates.txt crates \( -name must-fail -o -name out \) -prune -o -type f -print0 | sort -z | xargs -0 sha256sum
        sha256sum target/staticlib/libramsummer.a
    } 2>&1 | sha256sum
}

# The host's crate with std, with no allocator, and with an allocator and no std.
features=("" "--no-default-features" "--no-default-features --features alloc")

# What the examples leave out in C is left out here.
examples() {
    local line
    while IFS= read -r line; do
        echo "$line"
        case $line in "cc is not here"* | "ThreadSanitizer is not here"*) left_out+=("$line") ;; esac
    done < <(host/run-examples)
    wait $!
}
test_ledger() {
    named "tests/reference: the ledger in Rust, frames, scripts, words and pictures" tests tests/reference
    named "tests/plain: a pool, its plans and a sheet in plain Rust against the ledger" tests tests/plain
}
test_program() {
    named "compare: poolrun against the ledger on 1,000 scripts and the longest" reference compare -- target/bin/poolrun 1000
}
test_plans() {
    named "compare: plan against the ledger's on 200 texts of plans" reference compare -- --plans target/bin/plan 200
}
test_library() {
    for options in "${features[@]}"; do
        named "host: the Rust crate and the headers over the library (${options:-with std})" tests host $options
    done
    named "tests/host: the library against ledger and plain pool, on millions of calls and damaged records" tests tests/host
}
# The library on other processors, where their compilers and qemu are here; what that leaves out is left out of this too.
cross_test() {
    tools/cross --test | tee target/cross.log
    mapfile -t -O "${#left_out[@]}" left_out < <(grep ': left out ' target/cross.log)
}
