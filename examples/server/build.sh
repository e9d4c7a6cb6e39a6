#!/usr/bin/env bash
# Builds the versions of the server once, with the compiler's line numbers, into debug/, and puts a stripped copy of each into built/. So an address of built/server_2 is
# one of debug/server_2. Another build wouldn't do: a linker that relaxes calls may place the same source otherwise.
# Needs the stock compiler and picolibc (Debian: gcc-riscv64-unknown-elf and picolibc-riscv64-unknown-elf). Status 3: one of them isn't on this machine.
set -eu
cd "$(dirname "$0")"

mkdir -p built debug
for version in 1 2 3 4; do
    ../guests/cc -DVERSION=$version server.c -o "debug/server_$version"
    riscv64-unknown-elf-strip -o "built/server_$version" "debug/server_$version"
done
