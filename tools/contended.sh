#!/usr/bin/env bash
# Measures locks under contention: of this library and the kit by crates/bench_contended, which `rt run` there has built; then those of the Rust
# crate and of Rust's std.
#
#     UPSTREAM=FOLDER tools/contended.sh MILLISECONDS
#
# FOLDER has the Rust crate. Each row takes so many milliseconds, and there are 168.
set -euo pipefail
millis=${1:?how many milliseconds a row is to take}
crate=$(readlink -f -- "${UPSTREAM:?the folder that has the Rust crate}")
cd -- "$(dirname -- "$(readlink -f -- "$0")")/.."
room=$(mktemp -d)
trap 'rm -rf -- "$room"' EXIT
name=iceoryx2_pal_concurrency_sync
options=(--edition 2024 -C opt-level=3 -C codegen-units=1 -C panic=abort)
rustc "${options[@]}" --crate-type rlib --crate-name "$name" --cap-lints allow "$crate/src/lib.rs" --out-dir "$room"
rustc "${options[@]}" -C lto=fat tools/contended.rs -o "$room/contended" --extern "$name=$room/lib$name.rlib"
echo "$millis" | crates/bench_contended/out/bench_contended
"$room/contended" "$millis"
