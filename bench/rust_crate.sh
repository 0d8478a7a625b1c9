#!/bin/sh
# Times the Rust crate itself over the values of build.sh: bench/rust_crate.sh FOLDER, where FOLDER holds serde_amqp 0.18.0 as cargo builds it.
set -e
[ -f "$1/Cargo.toml" ] || { echo 'usage: bench/rust_crate.sh FOLDER, with serde_amqp in it' >&2; exit 1; }
crate=$(cd "$1" && pwd)
cd "$(dirname "$0")"
work=$(mktemp -d)
trap 'rm -rf "$work"' EXIT
mkdir "$work/src"
cp numbers.rs "$work/src/"
cp rust_crate.rs "$work/src/main.rs"
cat > "$work/Cargo.toml" << END
[package]
name = "rust_crate"
version = "0.0.0"
edition = "2024"

[dependencies]
serde_amqp = { path = "$crate", default-features = false }
serde = { version = "1", features = ["derive"] }

[profile.release]
lto = "fat"
codegen-units = 1
panic = "abort"
END
cargo run --quiet --release --manifest-path "$work/Cargo.toml"
