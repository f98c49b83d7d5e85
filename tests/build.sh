# Builds the judge for tests/run, tests/long and tests/replay, which read this file from the
# repository's root. After that the function `judge` runs it.
export CARGO_TARGET_DIR="$PWD/target/cargo"
library=${TRIEFF_LIB:-target/staticlib}/libtrieff.a
[ -f "$library" ] || {
    echo "tests: no $library: build the library first (tools/build trieff)" >&2
    exit 2
}

# quietly COMMAND..: runs the command, and shows what it writes only if it fails
quietly() {
    local said
    said=$("$@" 2>&1) || {
        echo "$said"
        return 1
    }
}
quietly cargo build --quiet --release --offline --locked --manifest-path tests/Cargo.toml

# judge SECONDS ARGS..: runs the judge. If a call kills it or never returns, prints the notes,
# which name the case that each thread was at
judge() {
    local status=0
    export JUDGE_NOTES="$PWD/target/judge"
    rm -rf "$JUDGE_NOTES"
    mkdir -p "$JUDGE_NOTES"
    timeout "$1" "$CARGO_TARGET_DIR/release/judge" "${@:2}" || status=$?
    if [ "$status" -ge 124 ]; then
        echo "tests: the judge was stopped (status $status) in one of:"
        cat "$JUDGE_NOTES"/*
    fi
    return "$status"
}
