#!/bin/sh
# Compiles what rt try made of a program, without the checks that it put in, which make it a hundred times slower:
#     sh tests/gate/without_checks.sh KIT MODULE.BC PROGRAM
# The checks are calls of functions of one module, traps, and bytes that are written into what is new. Wants `cc`.
set -eu
clang=$1/toolchain/bin/clang
"$clang" -S -emit-llvm -x ir "$2" -o "$3.checked.ll"
grep -vE 'call void @("rattle-llvm-checks|llvm\.trap)|memset\.p0\.i64\(ptr %r[0-9]+, i8 -86' "$3.checked.ll" > "$3.ll"
"$clang" -O1 -c "$3.ll" -o "$3.o"
cc -o "$3" "$3.o" "$1/c/libos_c.a" "$1/c/liblibc_c.a" -lm
rm "$3.checked.ll" "$3.ll" "$3.o"
