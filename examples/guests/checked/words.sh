# How a checked guest is built (docs/CHECKED.md), for the cc of ../ and that of ../libc: sourced, with the compiler as `compiler`.
# CHECKED_MEMORY is the memory that the shadow is for; CHECKED_FILL the byte that new objects of the heap are filled with; CHECKED_CALLS the number of accesses in a
# function from which on the compiler calls the runtime for each in place of looking itself.
checked=$(dirname "$(realpath "${BASH_SOURCE[0]}")")
checked_memory=${CHECKED_MEMORY:-4194304}
checked_offset=0xe000

# For each source that looks; and for those of the program, which have undefined behaviour and global objects looked at, too. Without the two words on ends of branches a line
# could be that of an equal end of another branch.
checked_library_words=(-fsanitize=kernel-address -fno-sanitize-recover=all "-fasan-shadow-offset=$checked_offset" --param asan-stack=1 --param asan-instrument-allocas=1
    --param "asan-instrumentation-with-call-threshold=${CHECKED_CALLS:-1000000}" -fno-omit-frame-pointer -fno-crossjumping -fno-tree-tail-merge)
checked_words=("${checked_library_words[@]}" -fsanitize=undefined -fsanitize-address-use-after-scope --param asan-globals=1)

# checked_runtime ROOM STACK REALLOC_0_FREES SCRIPT WORD..: builds the runtime by these words into the empty folder ROOM, and has `checked_link` be what a link takes of it.
# SCRIPT is the linker file of a plain guest, STACK the size of main's stack; realloc to no bytes frees in one C library, and in the other it doesn't.
checked_runtime() {
    local room=$1 stack=$2 frees=$3 script=$4 function
    shift 4
    sed -f "$checked/shadow.sed" "$script" >"$room/checked.ld"
    (cd "$room" && "$compiler" "$@" -c -ffunction-sections -fno-builtin -fno-omit-frame-pointer -fno-tree-loop-distribute-patterns "-DCHECKED_OFFSET=$checked_offset" \
        "-DCHECKED_MEMORY=$checked_memory" "-DCHECKED_STACK=$stack" "-DCHECKED_FILL=${CHECKED_FILL:-0xa5}" "-DCHECKED_REALLOC_0_FREES=$frees" "$checked"/*.c)
    checked_link=(-T "$room/checked.ld" "-Wl,--defsym=__memory=$checked_memory" -Wl,--gc-sections "$room"/*.o)
    for function in $("${compiler%gcc}nm" "$room"/*.o | sed -n 's/^[0-9a-f]* T __wrap_//p'); do
        checked_link+=("-Wl,--wrap=$function")
    done
    # The compiler has its own library linked, which isn't there for this machine.
    echo '/* nothing */' >"$room/libubsan.a"
    checked_link+=("-L$room")
}
