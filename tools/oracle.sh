# Sourced by the scripts that run the original (oracle/).
# The source is in the folder STONESPRY_SOURCE, else in ../shared/docs/src beside the repository.
# All that is built stands in target/.

root=$(cd "$(dirname "$0")/.." && pwd -P)
: "${STONESPRY_SOURCE:=$root/../shared/docs/src}"
case $STONESPRY_SOURCE in /*) ;; *) STONESPRY_SOURCE=$PWD/$STONESPRY_SOURCE ;; esac
export STONESPRY_SOURCE

# Prints why the original cannot be run here, or nothing.
oracle_missing() {
    for file in token space manager revocation; do
        if [ ! -f "$STONESPRY_SOURCE/kernel/src/cap/$file.rs" ]; then
            echo "no kernel/src/cap/$file.rs below $STONESPRY_SOURCE"
            return
        fi
    done
    if ! (cd "$STONESPRY_SOURCE" && sha256sum --status -c "$root/oracle/SOURCE.sha256" 2>/dev/null); then
        echo "the files below $STONESPRY_SOURCE are not those of commit d5c8c1e816 (oracle/SOURCE.sha256)"
        return
    fi
    for tool in cargo rustc cc; do
        if ! "$tool" --version >/dev/null 2>&1; then
            echo "no $tool here"
            return
        fi
    done
}

# Ends a script in a test's last line where the original cannot be run.
skip_without_oracle() { # WHAT
    missing=$(oracle_missing)
    if [ -n "$missing" ]; then
        echo "skipped: $1: $missing"
        echo "0 passed, 0 failed"
        exit 0
    fi
}

oracle_cargo() { # COMMAND WORDS.., by the profile in $profile, else release, in the folder $built, else target/cargo
    command=$1
    shift
    CARGO_TARGET_DIR=${built:-$root/target/cargo} cargo "$command" --quiet --profile "${profile:-release}" --locked --offline \
        --manifest-path "$root/oracle/Cargo.toml" "$@"
}

# A fixed list of the original's answers, which the program BINARY writes: into the crate that replays it, or with --check into target/, to
# be compared with what the crate has; the last line is then 'N passed, M failed'.
fixed_list() { # BINARY CRATE WHAT [--check]
    replay=$root/crates/$2
    case ${4:-} in
    '')
        missing=$(oracle_missing)
        [ -z "$missing" ] || { echo "$3: $missing" >&2; exit 2; }
        oracle_cargo run --bin "$1" "$replay"
        ;;
    --check)
        skip_without_oracle "$3"
        made=$root/target/$1
        mkdir -p "$made"
        if oracle_cargo run --bin "$1" "$made" && cmp "$made/stdin" "$replay/stdin" && cmp "$made/stdout" "$replay/stdout"; then
            echo "1 passed, 0 failed"
        else
            echo "0 passed, 1 failed"
            exit 1
        fi
        ;;
    *) echo "usage: ${0##*/} [--check]" >&2; exit 2 ;;
    esac
}
