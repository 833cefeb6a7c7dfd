#!/bin/sh
# Builds the oracle, uefi-eventlog 0.3.0 with two calls cut from `next`, and its driver. README.md says what it is.
#
#   oracle/build.sh [SOURCE]      SOURCE holds src/lib.rs and src/parsed.rs; ../shared/docs/src beside the repository if not given
#   OUT=FOLDER                    where to build (target/oracle); the program is OUT/driver
#   REGISTRY=FOLDER               where Debian's packages put their crates (/usr/share/cargo/registry)
set -eu

here=$(cd "$(dirname "$0")" && pwd)
source=$(cd "${1:-$here/../../shared/docs/src}" && pwd)
mkdir -p "${OUT:-$here/../target/oracle}"
out=$(cd "${OUT:-$here/../target/oracle}" && pwd)
registry=${REGISTRY:-/usr/share/cargo/registry}
all=$out/all

no() { echo "build.sh: $*" >&2; exit 1; }

# The published files, by their sums.
(cd "$source/src" && sha256sum --quiet -c -) <<'S' || no "$source/src is not the text of 0.3.0"
e00b6915c27282d9d9146bc7af1d5c3ccf4e9a0bdd18c8c6ff24384ef7d9ce5a  lib.rs
f9a7fd5bf997032563ddeb98414efe5828ead87e137ddb76815235063b1da6ec  parsed.rs
S

rm -rf "$all"
mkdir -p "$all/uefi-eventlog/src" "$all/.cargo"
cp -r "$here/driver" "$here/stand-ins" "$all"
cp "$source/src/parsed.rs" "$all/uefi-eventlog/src"

# The cut: in `next` the two lines of each call, emptied so that every line keeps its number. Nothing else may change.
sed -E 's/^ +(firstevent|val)\.(confirm_digests\(\)|extend\(&mut self\.pcr_extender\))\?;$//' "$source/src/lib.rs" > "$all/uefi-eventlog/src/lib.rs"
cut=$(diff "$source/src/lib.rs" "$all/uefi-eventlog/src/lib.rs" | grep '^[<>]' | sed -E 's/^(.) */\1/' | tr -d '\n') || true
[ "$cut" = '<firstevent.confirm_digests()?;<firstevent.extend(&mut self.pcr_extender)?;>><val.confirm_digests()?;><val.extend(&mut self.pcr_extender)?;>' ] ||
    no "the cut took something else: $cut"

# Debian's crates: cargo takes them from the folder of their packages and asks no network.
packages="librust-base64-dev librust-byteorder-dev librust-fallible-iterator-dev librust-num-derive-dev librust-num-traits-dev librust-serde-dev
librust-serde+serde-derive-dev librust-thiserror-dev librust-widestring-dev"
for one in base64-0.13 byteorder-1 fallible-iterator-0.2 num-derive-0.3 num-traits-0.2 serde-1 serde_derive-1 thiserror-1 widestring-0.4; do
    ls -d "$registry/$one".* > /dev/null 2>&1 || no "no $one in $registry; Debian has it in one of $packages"
done
printf '[source.crates-io]\nreplace-with = "debian"\n[source.debian]\ndirectory = "%s"\n' "$registry" > "$all/.cargo/config.toml"

cat > "$all/Cargo.toml" <<T
[workspace]
resolver = "2"
members = ["driver"]

[workspace.dependencies]
log = { path = "stand-ins/log" }
openssl = { path = "stand-ins/openssl" }
tpmless-tpm2 = { path = "stand-ins/tpmless-tpm2" }
uuid = { path = "stand-ins/uuid" }
base64 = "0.13"
byteorder = "1"
fallible-iterator = "0.2"
num-derive = "0.3"
num-traits = "0.2"
serde = { version = "1", features = ["derive"] }
thiserror = "1"
widestring = "0.4"

[profile.release]
overflow-checks = true
T

cat > "$all/uefi-eventlog/Cargo.toml" <<'T'
[package]
name = "uefi-eventlog"
version = "0.3.0"
edition = "2018"

[dependencies]
base64.workspace = true
byteorder.workspace = true
fallible-iterator.workspace = true
log.workspace = true
num-derive.workspace = true
num-traits.workspace = true
openssl.workspace = true
serde.workspace = true
thiserror.workspace = true
tpmless-tpm2.workspace = true
uuid.workspace = true
widestring.workspace = true

[lints.rust]
warnings = "allow"
T

(cd "$all" && cargo build --quiet --release --offline --target-dir "$out/target")
cp "$out/target/release/driver" "$out/driver"

# What the build must see to: overflow checks, seen as a panic at the product of parsed.rs 40, and the stack for the longest path of a first record, 8,176 nodes.
zeros() { head -c "$1" /dev/zero; }
said=$({ printf '\0\0\0\0\001\0\0\200'; zeros 20; printf '\030\0\0\0'; zeros 23; printf '\200'; } | "$out/driver" list | tail -n 1)
[ "$said" = "panic at 0 data 32+24 parsed.rs:40" ] || no "overflow is not checked: $said"
nodes() { yes "$(printf '\177\377\004')" | head -n 8176 | tr '\n' '\0'; }
said=$({ printf '\0\0\0\0\003\0\0\200'; zeros 20; printf '\340\177\0\0'; zeros 24; printf '\300\177\0\0\0\0\0\0'; nodes; } |
    "$out/driver" detail | sed -n 2p)
case $said in
*" nodes 8176 "*) ;;
*) no "the stack is too small: $said" ;;
esac
echo "built $out/driver"
