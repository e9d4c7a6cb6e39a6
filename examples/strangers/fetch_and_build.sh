#!/usr/bin/env bash
# Fetches the sources of two packages of Debian 12, Lua and bzip2, and builds each twice: as its authors published it (_original), and with
# Debian's patches (_debian). All is put into out/: apt-get has its lists there too, so the machine's own stay as they are.
# DEBIAN_MIRROR names another mirror than http://deb.debian.org/debian.
# Status 3: a tool, the library or the network is missing, or the mirror has other versions of the packages by now.
set -eu
cd "$(dirname "$0")"

compiler=${CC_GUEST:-riscv64-unknown-elf-gcc}
mirror=${DEBIAN_MIRROR:-http://deb.debian.org/debian}
keys=/usr/share/keyrings/debian-archive-keyring.gpg
lua=5.4.4-3+deb12u1
bzip2=1.0.8-5

missing() {
    echo "fetch_and_build.sh: $1" >&2
    exit 3
}

for tool in apt-get dpkg-source patch "$compiler"; do
    command -v "$tool" >/dev/null || missing "$tool isn't on this machine"
done
[ -e "$keys" ] || missing "the package debian-archive-keyring isn't on this machine"
echo '#include <stdio.h>' | "$compiler" --specs=picolibc.specs -E - >/dev/null 2>&1 || missing "picolibc isn't on this machine"

# apt WORD..: apt-get with a list of sources and a state of its own.
apt() {
    apt-get -q -o Dir::Etc::sourcelist="$PWD/sources.list" -o Dir::Etc::sourceparts=- -o Dir::State="$PWD" -o Dir::Cache="$PWD" \
        -o APT::Sandbox::User=root -o APT::Update::Error-Mode=any -o Acquire::Retries=0 -o Acquire::http::Timeout=20 "$@" >>log 2>&1
}

# fetch: the packages' files into out/apt, as the mirror's signed list has them.
fetch() {
    mkdir -p out/apt/lists/partial out/apt/archives/partial
    cd out/apt
    echo "deb-src [signed-by=$keys] $mirror bookworm main" >sources.list
    apt update || missing "$mirror can't be reached: out/apt/log"
    apt source --download-only "lua5.4=$lua" "bzip2=$bzip2" || missing "lua5.4 $lua and bzip2 $bzip2 can't be had from $mirror: out/apt/log"
    cd ../..
}

# unpack NAME VERSION: the package's source into out/NAME_original, and with Debian's patches into out/NAME_debian.
unpack() {
    rm -rf "out/${1}_original_source" "out/${1}_debian_source"
    if ! dpkg-source --no-check --no-copy --skip-patches -x "out/apt/${1}_$2.dsc" "out/${1}_original_source" >>out/apt/log 2>&1 ||
        ! dpkg-source --no-check --no-copy -x "out/apt/${1}_$2.dsc" "out/${1}_debian_source" >>out/apt/log 2>&1; then
        echo "fetch_and_build.sh: $1 can't be unpacked: out/apt/log" >&2
        exit 1
    fi
}

# build PROGRAM ARGUMENT..: with these arguments for the compiler, and with a printf that has floating point.
build() {
    local program=$1
    shift
    ../guests/cc -s -w -DPICOLIBC_DOUBLE_PRINTF_SCANF -include unix.h -o "out/$program" "$@"
}

# sources FOLDER NAME..: the C files of these names.
sources() {
    local folder=$1
    shift
    printf "$folder/%s.c " "$@"
}

if ! [ -e "out/apt/lua5.4_$lua.dsc" ] || ! [ -e "out/apt/bzip2_$bzip2.dsc" ]; then
    fetch
fi
unpack lua5.4 "$lua"
unpack bzip2 "$bzip2"

# Debian makes this header when it builds, for each of its machines.
mkdir -p out/include
echo '#define DEB_HOST_MULTIARCH "riscv32-unknown-elf"' >out/include/lua5.4-deb-multiarch.h
for version in original debian; do
    # Lua seeds its hashes by addresses and the time, unless it is told a seed: two versions would go through a table in different orders.
    build "lua_$version" -Iout/include '-Dluai_makeseed(L)=1' $(sources "out/lua5.4_${version}_source/src" lapi lcode lctype ldebug ldo \
        ldump lfunc lgc llex lmem lobject lopcodes lparser lstate lstring ltable ltm lundump lvm lzio lauxlib lbaselib lcorolib ldblib \
        liolib lmathlib loadlib loslib lstrlib ltablib lutf8lib linit lua) -lm
    build "bzip2_$version" $(sources "out/bzip2_${version}_source" bzip2 blocksort huffman crctable randtable compress decompress bzlib)
done
