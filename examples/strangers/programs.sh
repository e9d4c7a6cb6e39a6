#!/usr/bin/env bash
# Fetches programs of Debian 12 that are for Linux and builds each of them unchanged, as its authors published it (_original) and with Debian's
# patches (_debian), over the C library of ../guests/libc: out/NAME for varan, and out/NAME_linux, the same objects over the library as it is.
# Of mosquitto, lighttpd and ngircd the one that is called _original is Debian's without the fix of one bug.
# programs.sh [NAME..]: mini_httpd, dash, sqlite, expat, libmicrohttpd, libmicrohttpd_poll, lua5.4,
# mosquitto, lighttpd, ngircd; all where none is named.
# DEBIAN_MIRROR names another mirror than http://deb.debian.org/debian.
# Status 3: a tool, the library or the network is missing, or the mirror has other versions of the packages by now.
set -eu
cd "$(dirname "$0")"

cc=$PWD/../guests/libc/cc
words=(-Os -ffunction-sections -fdata-sections -w "-ffile-prefix-map=$PWD/=")
declare -A version=([mini-httpd]=1.30-3 [dash]=0.5.12-2 [sqlite3]=3.40.1-2+deb12u2 [expat]=2.5.0-1+deb12u2 [libmicrohttpd]=0.9.75-6 [lua5.4]=5.4.4-3+deb12u1
    [mosquitto]=2.0.11-1.2+deb12u2 [lighttpd]=1.4.69-1)

. ./packages.sh

# compile FOLDER WORD..: the C files among the words, into the empty folder out/objects/FOLDER. The same code is linked for varan and for Linux.
compile() {
    local place=$PWD/out/objects/$1 name flags=() sources=()
    shift
    for name; do
        case $name in
        *.c) sources+=("$(realpath "$name")") ;;
        *) flags+=("$name") ;;
        esac
    done
    rm -rf "$place"
    mkdir -p "$place"
    (cd "$place" && "$cc" "${words[@]}" "${flags[@]}" -c "${sources[@]}")
}

# link PROGRAM STACK WORD..: these objects, over both libraries.
link() {
    local program=$1 stack=$2
    shift 2
    "$cc" --stack "$stack" -o "out/$program" "$@"
    "$cc" --linux -o "out/${program}_linux" "$@"
}

build_mini_httpd() {
    source_of mini-httpd
    local patched
    for patched in original debian; do
        local source=out/mini-httpd_${patched}_source
        make -s -C "$source" mime_encodings.h mime_types.h
        compile "mini_httpd_$patched" "$source"/{mini_httpd,match,tdate_parse}.c crypt_null.c
        link "mini_httpd_$patched" 131072 out/objects/mini_httpd_$patched/*.o -Wl,--wrap=crypt
    done
}

# Of dash's patches the one for the bug alone is applied: another adds a file to its Makefile, and with it other calls.
build_dash() {
    source_of dash
    rm -rf out/dash_debian_source
    cp -a out/dash_original_source out/dash_debian_source
    patch -s -d out/dash_debian_source -p1 <out/dash_original_source/debian/patches/0009-dash-Fix-stack-overflow-from-infinite-recursion-in-s.patch
    local patched
    for patched in original debian; do
        (
            cd out/dash_${patched}_source
            ./configure --host=riscv32-linux-musl --disable-dependency-tracking --disable-fnmatch --disable-lineno \
                CC="$cc" CC_FOR_BUILD=cc CFLAGS="${words[*]}"
            make -s
        ) >"out/dash_${patched}_log" 2>&1 || { echo "programs.sh: dash: out/dash_${patched}_log" >&2; exit 1; }
        link "dash_$patched" 1048576 out/dash_${patched}_source/src/*.o out/dash_${patched}_source/src/bltin/*.o
    done
}

build_sqlite() {
    command -v tclsh >/dev/null || missing "tclsh isn't on this machine"
    source_of sqlite3
    local patched
    for patched in original debian; do
        (cd out/sqlite3_${patched}_source && ./configure --disable-tcl --disable-readline --disable-load-extension && make sqlite3.c) \
            >"out/sqlite3_${patched}_log" 2>&1 || { echo "programs.sh: sqlite: out/sqlite3_${patched}_log" >&2; exit 1; }
        compile "sqlite_$patched" -DSQLITE_THREADSAFE=0 -DSQLITE_OMIT_LOAD_EXTENSION -DSQLITE_OMIT_WAL -I"$PWD/out/sqlite3_${patched}_source" -I"$PWD" \
            out/sqlite3_${patched}_source/sqlite3.c service.c answer_sql.c
        link "sqlite_$patched" 262144 out/objects/sqlite_$patched/*.o
    done
}

build_expat() {
    source_of expat
    mkdir -p out/include
    # What its configure finds on a machine that has what Linux has.
    printf '#define %s\n' 'HAVE_GETRANDOM 1' 'XML_CONTEXT_BYTES 1024' 'XML_DTD 1' 'XML_GE 1' 'XML_NS 1' 'BYTEORDER 1234' \
        'HAVE_MEMMOVE 1' 'HAVE_UNISTD_H 1' >out/include/expat_config.h
    local patched
    for patched in original debian; do
        local source=out/expat_${patched}_source/expat/lib
        compile "expat_$patched" -DHAVE_EXPAT_CONFIG_H -I"$PWD/out/include" -I"$PWD/$source" -I"$PWD" \
            "$source"/{xmlparse,xmltok,xmlrole}.c service.c answer_xml.c
        link "expat_$patched" 65536 out/objects/expat_$patched/*.o
    done
}

build_libmicrohttpd() {
    source_of libmicrohttpd
    local patched
    for patched in original debian; do
        (
            cd out/libmicrohttpd_${patched}_source
            ./configure --host=riscv32-linux-musl --build="$(cc -dumpmachine)" --disable-shared --disable-nls --disable-https --disable-doc \
                --disable-curl --enable-poll=no --enable-epoll=no CC="$cc" CFLAGS="${words[*]}"
            make -s -C src/microhttpd
        ) >"out/libmicrohttpd_${patched}_log" 2>&1 || { echo "programs.sh: libmicrohttpd: out/libmicrohttpd_${patched}_log" >&2; exit 1; }
        compile "libmicrohttpd_$patched" -I"$PWD/out/libmicrohttpd_${patched}_source" -I"$PWD/out/libmicrohttpd_${patched}_source/src/include" \
            out/libmicrohttpd_${patched}_source/src/examples/post_example.c
        link "libmicrohttpd_$patched" 131072 out/objects/libmicrohttpd_$patched/*.o out/libmicrohttpd_${patched}_source/src/microhttpd/.libs/libmicrohttpd.a
    done
}

# The library's own loop over poll, in a thread of its own: the example waits for a key beside it, which here never comes.
build_libmicrohttpd_poll() {
    source_of libmicrohttpd
    local patched
    for patched in original debian; do
        local source=out/libmicrohttpd_${patched}_source
        (
            cd "$source"
            ./configure --host=riscv32-linux-musl --build="$(cc -dumpmachine)" --disable-shared --disable-nls --disable-https --disable-doc \
                --disable-curl --enable-poll=yes --enable-epoll=no --enable-itc=pipe CC="$cc" CFLAGS="${words[*]}"
            make -s -C src/microhttpd
        ) >"out/libmicrohttpd_poll_${patched}_log" 2>&1 || { echo "programs.sh: libmicrohttpd: out/libmicrohttpd_poll_${patched}_log" >&2; exit 1; }
        compile "libmicrohttpd_poll_$patched" -I"$PWD/$source" -I"$PWD/$source/src/include" -Dgetchar=wait_for_ever \
            "$source/doc/examples/simplepost.c" wait_for_ever.c
        link "libmicrohttpd_poll_$patched" 131072 out/objects/libmicrohttpd_poll_$patched/*.o "$source/src/microhttpd/.libs/libmicrohttpd.a"
    done
}

build_lua5.4() {
    source_of lua5.4
    # Debian makes this header when it builds, for each of its machines.
    mkdir -p out/include
    echo '#define DEB_HOST_MULTIARCH "riscv32-linux-musl"' >out/include/lua5.4-deb-multiarch.h
    local patched name
    for patched in original debian; do
        local sources=()
        for name in lapi lauxlib lbaselib lcode lcorolib lctype ldblib ldebug ldo ldump lfunc lgc linit liolib llex lmathlib lmem loadlib lobject \
            lopcodes loslib lparser lstate lstring lstrlib ltable ltablib ltm lua lundump lutf8lib lvm lzio; do
            sources+=("out/lua5.4_${patched}_source/src/$name.c")
        done
        compile "lua5.4_$patched" -DLUA_USE_POSIX -I"$PWD/out/include" "${sources[@]}"
        link "lua5.4_$patched" 262144 out/objects/lua5.4_$patched/*.o
    done
}

# without_fix PACKAGE FILE EXPRESSION: out/PACKAGE_original_source is Debian's, without the lines of a fix in this file.
without_fix() {
    rm -rf "out/${1}_original_source"
    cp -a "out/${1}_debian_source" "out/${1}_original_source"
    sed -i "$3" "out/${1}_original_source/$2"
    ! cmp -s "out/${1}_debian_source/$2" "out/${1}_original_source/$2" || { echo "programs.sh: $1: the fix isn't in $2" >&2; exit 1; }
}

# A broker of messages: its own loop over poll. The fix is that of CVE-2021-28166, which came with 2.0.10.
build_mosquitto() {
    source_of mosquitto
    without_fix mosquitto src/handle_connack.c 's/context == NULL || context->bridge == NULL/context == NULL/'
    local patched
    for patched in original debian; do
        make -s -C "out/mosquitto_${patched}_source/src" mosquitto UNAME=Linux CC="$cc" CFLAGS="${words[*]}" \
            WITH_EPOLL=no WITH_TLS=no WITH_TLS_PSK=no WITH_MEMORY_TRACKING=no >"out/mosquitto_${patched}_log" 2>&1 ||
            { echo "programs.sh: mosquitto: out/mosquitto_${patched}_log" >&2; exit 1; }
        link "mosquitto_$patched" 131072 "out/mosquitto_${patched}_source/src"/*.o
    done
}

# A server of HTTP: one loop, by poll as its settings say. The fix is that of CVE-2019-11072, which came with 1.4.54.
build_lighttpd() {
    source_of lighttpd
    # what musl lacks
    mkdir -p out/include/sys
    echo '#include <sys/queue.h>' | cc -E - | sed -n 's/^# 1 "\(.*sys\/queue.h\)".*/\1/p' | head -n 1 | xargs -I{} cp {} out/include/sys/
    [ -e out/include/sys/queue.h ] || missing "sys/queue.h isn't on this machine"
    (
        cd out/lighttpd_debian_source
        LIGHTTPD_STATIC=yes ./configure --host=riscv32-linux-musl --build="$(cc -dumpmachine)" --disable-shared --enable-static --disable-ipv6 \
            --without-pcre2 --without-zlib --without-bzip2 --disable-dependency-tracking CC="$cc" CFLAGS="${words[*]}"
        make -s -C src configparser.c versionstamp
        printf 'PLUGIN_INIT(mod_%s)\n' indexfile staticfile access setenv >src/plugin-static.h
    ) >out/lighttpd_log 2>&1 || { echo "programs.sh: lighttpd: out/lighttpd_log" >&2; exit 1; }
    without_fix lighttpd src/burl.c '/^        qs = j;$/d'
    local patched name
    for patched in original debian; do
        local source=out/lighttpd_${patched}_source sources=()
        for name in server response connections h2 reqpool plugin sock_addr_cache network network_write ls-hpack/lshpack algo_xxhash fdevent_impl \
            http_range data_config configfile configparser base64 buffer burl log http_header http_kv keyvalue chunk http_chunk fdevent \
            fdevent_fdnode gw_backend stat_cache http_etag array algo_md5 algo_sha1 algo_splaytree configfile-glue http-header-glue http_cgi \
            http_date rand request sock_addr fdlog_maint fdlog sys-setjmp ck mod_auth_api mod_vhostdb_api mod_indexfile mod_staticfile \
            mod_access mod_setenv; do
            sources+=("$source/src/$name.c")
        done
        compile "lighttpd_$patched" "-ffile-prefix-map=$PWD/$source/=" -DHAVE_CONFIG_H -DHAVE_VERSIONSTAMP_H -DLIGHTTPD_STATIC '-DLIBRARY_DIR="/"' '-DSBIN_DIR="/"' \
            -I"$PWD/out/include" -I"$PWD/$source" -I"$PWD/$source/src" "${sources[@]}"
        link "lighttpd_$patched" 131072 out/objects/lighttpd_$patched/*.o
    done
}

# A server of chats: its own loop over poll. It is of Debian 13, whose file has this sum; Debian changes none of its sources. The fix is that of
# CVE-2013-1747, which came with 20.2; NDEBUG leaves out the assertion that would end the process before.
build_ngircd() {
    local file=out/apt/ngircd_27.orig.tar.xz sum=6897880319dd5e2e73c1c9019613509f88eb5b8daa5821a36fbca3d785c247b8
    mkdir -p out/apt
    echo "$sum  $file" | sha256sum --check --status 2>>out/apt/log || curl --silent --fail -o "$file" "$mirror/pool/main/n/ngircd/ngircd_27.orig.tar.xz" ||
        missing "$file can't be had from $mirror"
    echo "$sum  $file" | sha256sum --check --status || missing "$file is another one"
    rm -rf out/ngircd_debian_source
    mkdir out/ngircd_debian_source
    tar -xf "$file" -C out/ngircd_debian_source --strip-components=1
    (
        cd out/ngircd_debian_source
        ./configure --host=riscv32-linux-musl --build="$(cc -dumpmachine)" --without-epoll --without-select --without-kqueue --without-zlib \
            --without-syslog --disable-ipv6 --disable-dependency-tracking CC="$cc" CFLAGS="${words[*]} -DNDEBUG"
    ) >out/ngircd_log 2>&1 || { echo "programs.sh: ngircd: out/ngircd_log" >&2; exit 1; }
    without_fix ngircd src/ngircd/channel.c '/Check that the client to be kicked is on/,/^	}$/d'
    local patched part
    for patched in original debian; do
        local source=out/ngircd_${patched}_source
        for part in portab tool ipaddr ngircd; do
            make -s -C "$source/src/$part" >>out/ngircd_log 2>&1 || { echo "programs.sh: ngircd: out/ngircd_log" >&2; exit 1; }
        done
        link "ngircd_$patched" 131072 "$source"/src/ngircd/*.o "$source"/src/{tool/libngtool,portab/libngportab,ipaddr/libngipaddr}.a
    done
}

has_tools cc
[ -e ../guests/libc/out/guest/lib/libguest.a ] || missing "the C library isn't built: ../guests/libc/build.sh"
for name in "${@:-mini_httpd dash sqlite expat libmicrohttpd libmicrohttpd_poll lua5.4 mosquitto lighttpd ngircd}"; do
    for program in $name; do
        "build_$program"
    done
done
