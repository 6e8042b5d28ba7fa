#!/usr/bin/env bash
# Debloats the example program, and runs the original and the new file on this machine. Its files stay in out/hello.
set -eu
top=$(cd "$(dirname "$0")/.." && pwd)
program=$("$top/tools/program")
razor() { "$program" "$@"; }
mkdir -p "$top/out/hello"
cd "$top/out/hello"
cp "$top/crates/razor/data/e" "$top/crates/razor/data/i" .

# Shows a command, and carries it out.
step() { echo "\$ $*"; "$@"; }
step razor debloat e - exact 1000 w i
step ./e
step ./w
step razor replay e w 1000 i
