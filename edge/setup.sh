#!/usr/bin/env bash
# Builds wfedge, the compiled edge: target/release/wfedge beside this file. As root it installs what is missing by
# apt: cargo, and the crates that it stands on, as Debian packages. It builds offline, in two to ten minutes.
#   edge/setup.sh             the edge; with a client of PostgreSQL where the crates for that are installed
#   edge/setup.sh postgres    installs these crates too
set -eu
cd "$(dirname "$0")"
packages=(librust-tokio-dev librust-hyper-dev librust-httparse-dev librust-httpdate-dev librust-serde-dev
    librust-serde-derive-dev librust-serde-json-dev librust-crc32fast-dev librust-libc-dev librust-mio-dev librust-sha2-dev
    librust-tokio-rustls-dev librust-rustls-pemfile-dev)
client=(librust-tokio-postgres-dev librust-tokio-native-tls-dev librust-native-tls-dev)
is_there() {
    dpkg-query -W -f '${Status}' "$1" 2> /dev/null | grep -q 'ok installed'
}
command -v cargo > /dev/null || packages+=(cargo)
if [ "${1:-}" = postgres ]; then
    packages+=("${client[@]}")
fi
missing=()
for package in "${packages[@]}"; do
    is_there "$package" || missing+=("$package")
done
if [ "${#missing[@]}" -gt 0 ]; then
    if [ "$(id -u)" -ne 0 ]; then
        echo "setup: as root, apt-get install ${missing[*]}" >&2
        exit 2
    fi
    apt-get update -q
    apt-get install -q -y --no-install-recommends "${missing[@]}"
fi
export CARGO_TARGET_DIR="$PWD/target"
cargo build --release --offline
for package in "${client[@]}"; do
    is_there "$package" || exit 0
done
cd postgres
exec cargo build --release --offline --bin wfedge
