# shellcheck shell=bash
# A script that sources this from the top of the repository has a folder `scratch`, which goes when it ends, and `build`,
# which makes the test compressor there. The compressor that COMPRESSOR names, if it does, is taken instead.

# shellcheck disable=SC2034  # The script that sources this calls the compressor.
compressor=
source=$PWD/tools/compressor
scratch=$(mktemp -d)
trap 'rm -rf "$scratch"' EXIT

build() {
    if [ -n "${COMPRESSOR:-}" ]; then
        compressor=$(realpath "$COMPRESSOR")
    elif command -v cargo >/dev/null; then
        cargo build --quiet --release --locked --offline --target-dir "$scratch/target" \
            --manifest-path "$source/Cargo.toml" && compressor=$scratch/target/release/compressor
    elif command -v rustc >/dev/null; then
        local common=(--edition 2021 -O --out-dir "$scratch")
        rustc "${common[@]}" --crate-type rlib --crate-name compressor "$source/src/lib.rs" &&
            CARGO_PKG_VERSION=0 rustc "${common[@]}" --extern "compressor=$scratch/libcompressor.rlib" \
                --crate-name compress "$source/src/main.rs" && compressor=$scratch/compress
    else
        echo "left out: cargo isn't installed, so no packets of the test compressor were tried"
        # What was to be written isn't.
        [ -z "${write:-}" ]
        exit
    fi
}
