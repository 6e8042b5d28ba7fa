#!/usr/bin/env bash
# Debloats a program that gcc made of calculator.c for two inputs, and runs both files on this machine on these and on a
# third, which asks for a subtraction: there the new file stops at a stub, an illegal instruction. Its files stay in
# out/calculator.
set -eu
top=$(cd "$(dirname "$0")/.." && pwd)
program=$("$top/tools/program")
mkdir -p "$top/out/calculator"
cd "$top/out/calculator"
cp "$top/example/calculator" e

inputs=('34+p5!p*p' $'7p\n' '52-p')
for k in 0 1 2; do
    printf %s "${inputs[k]}" > "text$k"
    "$top/tools/input" --stdin "text$k" calculator > "i$k"
done
echo "\$ razor debloat e - exact 100000 w i0 i1"
"$program" debloat e - exact 100000 w i0 i1
for k in 0 1 2; do
    for file in e w; do
        echo "\$ ./$file < text$k    # ${inputs[k]%$'\n'}"
        "./$file" < "text$k" || echo "status $?"
    done
done
