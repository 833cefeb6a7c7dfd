#!/bin/sh
# Proves and builds a program, and puts it where the tools that measure look for it.
#
#   tools/native.sh PROGRAM       target/native/PROGRAM
#
# The toolchain makes programs for x86-64 alone: on another processor there is none to be timed.
set -eu

program=${1:?usage: tools/native.sh PROGRAM}
cd "$(dirname "$0")/.."
[ "$(uname -m)" = x86_64 ] || { echo "native.sh: programs are for x86-64" >&2; exit 1; }
(cd "crates/$program" && rt run < /dev/null > /dev/null)
mkdir -p target/native
cp "crates/$program/out/$program" "target/native/$program"
