#!/usr/bin/env bash
# Builds the versions of the keeper and of the loop by the stock compiler and picolibc, and those over epoll or with a thread for each client over musl, which
# ../guests/libc/build.sh has built. Says which of them the repository has otherwise. It changes nothing there.
# build.sh --write: puts them into built/.
# Status 1: a version is otherwise. 2: other arguments. 3: the compiler or a library isn't on this machine (../guests/cc, ../guests/libc/cc).
set -eu
cd "$(dirname "$0")"
if [ "$*" != "" ] && [ "$*" != --write ]; then
    echo "build.sh: build.sh or build.sh --write" >&2
    exit 2
fi
made=$(mktemp -d)
trap 'rm -rf "$made"' EXIT
status=0
for built in keeper_1 keeper_2 keeper_3 keeper_slow loop_1 loop_2 loop_asserts loop_select loop_epoll per_client_1 per_client_2; do
    words=("../guests/store_${built##*_}.c")
    compiler=(../guests/cc)
    [ "$built" = keeper_slow ] && words=(-DSLOW=500000 ../guests/store_1.c)
    [ "$built" = loop_asserts ] && words=(-DASSERTS ../guests/store_2.c)
    [ "$built" = loop_select ] && words=(-DSELECT -DFD_SETSIZE=1024 ../guests/store_1.c)
    [ "$built" = loop_epoll ] && words=(-DEPOLL ../guests/store_1.c)
    [[ $built = loop_epoll || $built = per_client_* ]] && compiler=(../guests/libc/cc -Os)
    "${compiler[@]}" -s "${built%_*}.c" "${words[@]}" -o "$made/$built"
    if [ "$*" = --write ]; then
        cp "$made/$built" built
    fi
    cmp "$made/$built" "built/$built" || status=1
done
exit $status
