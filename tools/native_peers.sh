#!/usr/bin/env bash
# Measures Rust's own channels, queues and events: tools/native_peers.sh [WORD ..], with the words of tools/native_peers.rs. It needs
# `rustc`. No part of the gate. BEFORE=COMMAND stands before the program: on a busy machine 'nice -n -10 taskset -c 3' for the words
# `parts` and `alone`, which are of one thread.
#
# Where the system has the ported crates and crossbeam's (Debian: librust-async-channel-dev, librust-crossbeam-channel-dev and
# librust-crossbeam-queue-dev), they are measured too, in older versions than those that are ported. That needs `cargo`, and no network.
set -eu
cd "$(dirname "$0")/.."
room=$(mktemp -d)
trap 'rm -rf "$room"' EXIT
sources=/usr/share/cargo/registry
if ls -d "$sources"/async-channel-* >/dev/null 2>&1; then
    mkdir -p "$room/src" "$room/.cargo"
    cp tools/native_peers.rs "$room/src/main.rs"
    cp tools/native_parts.rs "$room/src/"
    cat >"$room/Cargo.toml" <<'END'
[package]
name = "native_peers"
version = "0.0.0"
edition = "2021"

[dependencies]
async-channel = "1"
event-listener = "2"
concurrent-queue = "2"
crossbeam-channel = "0.5"
crossbeam-queue = "0.3"

[lints.rust]
unexpected_cfgs = "allow"
END
    printf '[source.crates-io]\nreplace-with = "packaged"\n[source.packaged]\ndirectory = "%s"\n' "$sources" >"$room/.cargo/config.toml"
    (cd "$room" && RUSTFLAGS="--cfg ported" cargo build --quiet --release --offline && mv target/release/native_peers .)
else
    rustc --edition 2021 -C opt-level=3 -o "$room/native_peers" tools/native_peers.rs
fi
${BEFORE:-} "$room/native_peers" "$@"
