# shellcheck shell=bash
# The library for other machines than the first. rattle's back end hands one LLVM module for each proved
# crate to the clang of its toolchain; there it is kept (target/modules, by tools/compile), and from it the
# kit's own clang and linkers make what dist/ has for the others. Nothing but the kit is needed, so the bytes
# are the same wherever the kit is. Sourced by tools/build.sh and called in the repository's folder.

# The others, by their folders in dist/ and target/machines. glibc looks for the first by itself.
hwcaps=x86-64-linux/glibc-hwcaps/x86-64-v3
machines=("$hwcaps" aarch64-linux x86-64-windows wasm32)

# Stack of crr.wasm: more than twice what crr.h asks for (CRR_TEXT_STACK_BYTES). A page has 65,536.
wasm_stack=524288

# ---- a module for a machine

# What clang is told for a machine. The target's name for the first is rattle's own.
flags_for() { # MACHINE
    case $1 in
    x86-64-linux) echo --target=x86_64-unknown-linux-gnu -march=x86-64 -fPIC ;;
    "$hwcaps") echo --target=x86_64-unknown-linux-gnu -march=x86-64-v3 -fPIC ;;
    aarch64-linux) echo --target=aarch64-unknown-linux-gnu -fPIC ;;
    x86-64-windows) echo --target=x86_64-pc-windows-msvc ;;
    wasm32) echo --target=wasm32-unknown-unknown -mbulk-memory -msimd128 ;;
    esac
}

# What becomes of the attributes of functions, which name the first machine's processor and ask for its
# probes of the stack. Windows has probes of its own; WebAssembly stops where the stack ends.
attributes_for() { # MACHINE
    local processor=' "target-cpu"="x86-64"' probes=' "probe-stack"="inline-asm" "stack-probe-size"="3072"'
    case $1 in
    "$hwcaps") echo "s/$processor/ \"target-cpu\"=\"x86-64-v3\"/" ;;
    aarch64-linux) echo "s/$processor//" ;;
    x86-64-windows) echo "s/$probes//" ;;
    wasm32) echo "s/$processor//; s/$probes//" ;;
    esac
}

# Writes a module as text, in which the target can be replaced.
module_text() { # MODULE.bc TEXT.ll
    "$(kit_tools)/clang" -S -emit-llvm -x ir "$1" -O0 -Xclang -disable-llvm-passes -o "$2.new"
    if ! grep -q '"probe-stack"="inline-asm" "stack-probe-size"="3072" "target-cpu"="x86-64"' "$2.new"; then
        echo "library: $1 has other attributes than tools/machines.sh replaces" >&2
        return 1
    fi
    mv "$2.new" "$2"
}

# The lines of a module that name its target, as clang writes them for an empty program.
target_lines() { # FLAG..
    "$(kit_tools)/clang" "$@" -S -emit-llvm -x c /dev/null -o - | grep '^target '
}

# What rattle told clang for a module, but for the target and the files.
words_for() { # MODULE.bc
    local word
    while IFS= read -r word; do
        case $word in
        --target=* | --sysroot=* | -march=* | -fPIC | -c | -x | ir | module.bc | -o | module.o) ;;
        *) echo "$word" ;;
        esac
    done < "$1.words"
}

# The text of a module as a machine's pointers want it.
pointers_for() { # MACHINE TEXT.ll
    case $1 in
    wasm32) tools/pointers < "$2" ;;
    *) cat "$2" ;;
    esac
}

# An object for a machine from the text of a module; but for the target, clang is told what rattle told it.
object_for() { # MACHINE TEXT.ll OBJECT
    local flags lines words
    read -ra flags <<< "$(flags_for "$1")"
    lines=$(target_lines "${flags[@]}")
    mapfile -t words < <(words_for "${2%.ll}.bc")
    { echo "$lines" && pointers_for "$1" "$2" | sed "/^target /d; $(attributes_for "$1")"; } > "$3.ll"
    "$(kit_tools)/clang" "${flags[@]}" "${words[@]}" -c -x ir "$3.ll" -o "$3"
    rm "$3.ll"
}

# ---- linking

header_functions() { grep -o '^uint64_t crr_[a-z0-9_]*' include/crr.h | cut -d ' ' -f 2; }

archive() { # FILE OBJECT..: with neither times nor owners
    rm -f "$1"
    "$(kit_tools)/llvm-ar" rcsD "$@"
}

shared_library() { # FILE ARCHIVE
    echo '{ global: crr_*; local: *; };' > "$1.exports"
    # Without --whole-archive nothing of an archive that nobody calls would be linked.
    "$(kit_tools)/ld.lld" -shared -s --build-id=none -z relro -z now -z noexecstack -soname libcrr.so.1 \
        --version-script "$1.exports" --whole-archive "$2" -o "$1"
    rm "$1.exports"
}

# crr.dll and its import library. What the library asks of the system, memcpy, memset and the probes of
# the stack, is in ntdll.dll, which every process has.
windows_library() { # FOLDER OBJECT..
    local out=$1 functions
    shift
    mapfile -t functions < <(header_functions)
    ln -sf "$(kit_tools)/clang" "$out/llvm-dlltool"
    printf '%s\n' 'LIBRARY ntdll.dll' EXPORTS memcpy memset __chkstk > "$out/ntdll.def"
    "$out/llvm-dlltool" -m i386:x86-64 -d "$out/ntdll.def" -l "$out/ntdll.lib"
    "$(kit_tools)/ld.lld" -flavor link /dll /noentry /nodefaultlib /machine:x64 /timestamp:0 /opt:ref,noicf \
        "${functions[@]/#//export:}" "/out:$out/crr.dll" "/implib:$out/crr.lib" "$out/ntdll.lib" "$@"
    rm "$out/llvm-dlltool" "$out/ntdll.def" "$out/ntdll.lib"
}

# Without an import; the stack stands first, so that what goes beyond it stops and overwrites nothing.
wasm_library() { # FILE OBJECT..
    local file=$1 functions
    shift
    mapfile -t functions < <(header_functions)
    "$(kit_tools)/ld.lld" -flavor wasm --no-entry --strip-all --stack-first -z stack-size="$wasm_stack" \
        "${functions[@]/#/--export=}" --export=__heap_base "$@" -o "$file"
}

# What the library for a machine is made from, and how.
modules_stamp() { # CRATE..
    local modules=("${@/#/target/modules/}")
    # The folder of the kit's toolchain is told to clang, and no code comes of it.
    { rt version && cat tools/machines.sh tools/pointers include/crr.h "${modules[@]/%/.bc}" && grep -v ^--sysroot= "${modules[@]/%/.bc.words}"; } | sha256sum
}

# The library for a machine, into its folder, unless that was made from the same modules in the same way.
library_for() { # MACHINE CRATE..
    local name=$1 out=target/machines/$1 crate objects=() stamp
    shift
    stamp=$(modules_stamp "$@")
    [ "$(cat "$out.stamp" 2> /dev/null)" != "$stamp" ] || return 0
    rm -rf "$out.stamp" "$out.new"
    mkdir -p "$out.new/objects"
    for crate in "$@"; do
        objects+=("$out.new/objects/$crate.o")
        object_for "$name" "target/modules/$crate.ll" "${objects[-1]}"
    done
    case $name in
    x86-64-windows) windows_library "$out.new" "${objects[@]}" ;;
    wasm32) wasm_library "$out.new/crr.wasm" "${objects[@]}" ;;
    *)
        archive "$out.new/libcrr.a" "${objects[@]}"
        shared_library "$out.new/libcrr.so" "$out.new/libcrr.a"
        ;;
    esac
    rm -rf "$out.new/objects" "$out"
    mv "$out.new" "$out"
    echo "$stamp" > "$out.stamp"
}

# The library for every other machine, from the modules of its crates, all machines at once.
libraries() { # CRATE..
    local crate name started=()
    for crate in "$@"; do
        [ "target/modules/$crate.ll" -nt "target/modules/$crate.bc" ] ||
            module_text "target/modules/$crate.bc" "target/modules/$crate.ll"
    done
    for name in "${machines[@]}"; do
        library_for "$name" "$@" &
        started+=($!)
    done
    for name in "${started[@]}"; do wait "$name"; done
    for name in "${machines[@]}"; do
        echo "library: target/machines/$name: $(cd "target/machines/$name" && stat -c '%n (%s bytes)' -- * | paste -sd ,)"
    done
}
