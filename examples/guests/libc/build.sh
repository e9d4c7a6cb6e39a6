#!/usr/bin/env bash
# Fetches Debian's source of the C library musl and builds it by the stock compiler: for guests, over the calls of this folder (out/guest), the same with checks
# (out/checked, docs/CHECKED.md), and as it is, for Linux (out/linux). All is put into out/: apt-get has its lists there too, so the machine's own stay as they are.
# DEBIAN_MIRROR names another mirror than http://deb.debian.org/debian. A line says what is done next; what is there already isn't done again.
# Status 3: a tool or the network is missing, or the mirror has another version of the package by now.
set -eu
cd "$(dirname "$0")"

compiler=${CC_GUEST:-riscv64-unknown-elf-gcc}
machine="-march=rv32ima -mabi=ilp32"
mirror=${DEBIAN_MIRROR:-http://deb.debian.org/debian}
keys=/usr/share/keyrings/debian-archive-keyring.gpg
# of Debian 13: that of Debian 12 has no 32-bit RISC-V
musl=1.2.5-3.1~deb13u1

missing() {
    echo "build.sh: $1" >&2
    exit 3
}

for tool in apt-get dpkg-source make "$compiler"; do
    command -v "$tool" >/dev/null || missing "$tool isn't on this machine"
done
[ -e "$keys" ] || missing "the package debian-archive-keyring isn't on this machine"

# apt WORD..: apt-get with a list of sources and a state of its own.
apt() {
    apt-get -q -o Dir::Etc::sourcelist="$PWD/sources.list" -o Dir::Etc::sourceparts=- -o Dir::State="$PWD" -o Dir::Cache="$PWD" \
        -o APT::Sandbox::User=root -o APT::Update::Error-Mode=any -o Acquire::Retries=0 -o Acquire::http::Timeout=20 "$@" >>log 2>&1
}

# fetch: the package's files into out/apt, as the mirror's signed list has them.
fetch() {
    echo "fetching musl $musl from $mirror"
    mkdir -p out/apt/lists/partial out/apt/archives/partial
    cd out/apt
    echo "deb-src [signed-by=$keys] $mirror trixie main" >sources.list
    apt update || missing "$mirror can't be reached: out/apt/log"
    apt source --download-only "musl=$musl" || missing "musl $musl can't be had from $mirror: out/apt/log"
    cd ../..
}

# install NAME COMPILER: the library in out/NAME_source is built and put into out/NAME.
install() {
    local place=$PWD/out/$1 by=$2
    rm -rf "$place"
    (
        cd "out/$1_source"
        CC=$by CROSS_COMPILE=${compiler%gcc} CFLAGS="$machine -Os -ffunction-sections -fdata-sections" \
            ./configure --target=riscv32-linux-musl --prefix="$place" --disable-shared --enable-wrapper=no
        make -j "$(nproc)" install
    ) >"out/$1_log" 2>&1 || { echo "build.sh: musl can't be built: out/$1_log" >&2; exit 1; }
}

# calls: the parts of this folder, beside the guests' library.
calls() {
    local part library objects=()
    echo "building out/calls"
    mkdir -p out/calls
    for part in start.S start.c calls.c descriptors.c sockets.c epoll.c memory.c processes.c signals.c asserts.c threads.S threads.c waiting.c; do
        "$compiler" $machine -std=gnu11 -Os -Wall -Wextra -ffreestanding -fno-strict-aliasing -ffunction-sections -fdata-sections -nostdinc \
            -isystem out/guest/include -isystem "$("$compiler" -print-file-name=include)" -D_GNU_SOURCE -c -o "out/calls/$part.o" "$part"
        objects+=("out/calls/$part.o")
    done
    for library in guest checked; do
        rm -f "out/$library/lib/libguest.a"
        "${compiler%gcc}ar" rc "out/$library/lib/libguest.a" "${objects[@]}"
    done
}

# library NAME COMPILER: unpacked and built, where it isn't yet.
library() {
    [ -e "out/$1/lib/libc.a" ] && return
    echo "building out/$1"
    rm -rf "out/$1_source"
    dpkg-source --no-check --no-copy -x "out/apt/musl_$musl.dsc" "out/$1_source" >>out/apt/log 2>&1 ||
        { echo "build.sh: musl can't be unpacked: out/apt/log" >&2; exit 1; }
    if [ "$1" != linux ]; then
        cp syscall_arch.h "out/$1_source/arch/riscv32/"
        # These make calls of their own: clone then answers ENOSYS, by the library's file for machines that have none.
        rm "out/$1_source"/src/thread/riscv32/{clone,syscall_cp,__unmapself}.s
    fi
    install "$1" "$2"
}

[ -e "out/apt/musl_$musl.dsc" ] || fetch
library guest "$compiler"
library checked "$PWD/checked_cc"
library linux "$compiler"
calls
