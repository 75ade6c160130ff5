# shellcheck shell=bash
# What dist/ is made from, and whether the tree has the same. Sourced by ./crr, ./run, ./library and
# tests/dist/run and called in the repository's folder. Bash and coreutils are enough.

# dist/'s folder for this machine.
case $HOSTTYPE-$OSTYPE in
aarch64-linux*) machine=aarch64-linux ;;
*) machine=x86-64-linux ;;
esac

# Whether the processor is an x86-64-v3, by what Linux says that it can do.
processor_is_v3() { # CPUINFO
    local line flag
    while IFS= read -r line && [[ $line != flags* ]]; do :; done < <(cat "$1" 2> /dev/null)
    for flag in cx16 lahf_lm popcnt sse4_1 sse4_2 ssse3 avx avx2 bmi1 bmi2 f16c fma abm movbe xsave; do
        [[ " $line " == *[[:space:]]"$flag "* ]] || return
    done
}

# The best shared library that dist/ has for the processor, by its name there. crr/library.py takes it alike.
shared_library_name() { # CPUINFO
    local best=glibc-hwcaps/x86-64-v3/libcrr.so
    if [ -f "dist/$machine/$best" ] && processor_is_v3 "$1"; then echo "$best"; else echo libcrr.so; fi
}

# What each crate of crates.txt stands on. Comments, blanks and the order of lines have no effect.
declare -A stands_on=()
read_crates() {
    local line name below
    [ -r crates.txt ] || { echo "crates.txt can't be read" >&2; exit 2; }
    while IFS= read -r line || [ -n "$line" ]; do
        line=${line%%#*}
        [[ $line == *:* ]] || continue
        read -r name _ <<< "${line%%:*}" # behind the name, what kind of crate it is
        read -ra below <<< "${line#*:}"
        stands_on[$name]=${below[*]}
    done < crates.txt
}

# The crates whose functions are the C interface.
library_crates() {
    local name
    for name in "${!stands_on[@]}"; do
        case $name in c_*) echo "$name" ;; esac
    done | LC_ALL=C sort
}

# CRATE..: these and all that they stand on. The kit's own libraries are not listed in crates.txt.
crates_of() {
    local todo=("$@") name below
    local -A seen=()
    while [ ${#todo[@]} -gt 0 ]; do
        name=${todo[-1]}
        unset 'todo[-1]'
        if [ -n "${stands_on[$name]+listed}" ] && [ -z "${seen[$name]:-}" ]; then
            seen[$name]=1
            read -ra below <<< "${stands_on[$name]}"
            todo+=("${below[@]}")
        fi
    done
    [ ${#seen[@]} -eq 0 ] || printf '%s\n' "${!seen[@]}" | LC_ALL=C sort
}

# CRATE..: these and all that they stand on, each behind those that it stands on.
lowest_first() {
    local -A seen=()
    in_order() {
        local below item
        [ -z "${seen[$1]:-}" ] && [ -n "${stands_on[$1]+listed}" ] || return 0
        seen[$1]=1
        read -ra below <<< "${stands_on[$1]}"
        for item in "${below[@]}"; do in_order "$item"; done
        echo "$1"
    }
    for item in "$@"; do in_order "$item"; done
}

# CRATE.. FILE..: what they are made from, as lines of MADE-FROM: each crate with what it stands on,
# then each file with its hash, so that `sha256sum --check` reads them.
sources() {
    local LC_ALL=C item crates=() files=()
    shopt -s globstar nullglob
    for item in "$@"; do
        case $item in */*) files+=("$item") ;; *) crates+=("$item") ;; esac
    done
    mapfile -t crates < <(crates_of "${crates[@]}")
    for item in "${crates[@]}"; do
        echo "# $item: ${stands_on[$item]}"
        files+=("crates/$item/src/"**/*.rt)
    done
    sha256sum "${files[@]}" < /dev/null
}

# Names what is on standard input, lines of MADE-FROM or SHA256SUMS, and not in FILE.
unlike() { # FILE
    local line
    LC_ALL=C sort | LC_ALL=C comm -23 - <(LC_ALL=C sort "$1" 2> /dev/null) | while IFS= read -r line; do
        case $line in
        '# '*) line=${line%%:*} && echo "crates.txt, the line of ${line#\# }," ;;
        *) echo "${line:66}" ;;
        esac
    done | LC_ALL=C sort
}

# Names in what the tree differs from MADE_FROM, of these crates, what they stand on, and these files.
differing() { # MADE_FROM CRATE.. FILE..
    local made_from=$1 item crate file
    local -A needed=()
    shift
    sources "$@" 2> /dev/null | unlike "$made_from"
    for item in "$@" $(crates_of "$@"); do needed[$item]=1; done
    while read -r _ file; do # listed, and no longer there
        crate=${file#crates/} crate=${crate%%/*}
        [ -f "$file" ] || [ -z "$crate" ] || [ -z "${needed[$crate]:-}${needed[$file]:-}" ] || echo "$file"
    done < <(cat "$made_from" 2> /dev/null)
}

# Why dist/'s FILEs are not taken for this tree, in one line; none where they are: they are whole and
# the sources of what is named behind them are those of MADE-FROM.
dist_unlike() { # FILE.. -- CRATE.. FILE..
    local file files=() names
    while [ "$1" != -- ]; do
        files+=("$machine/$1")
        shift
    done
    shift
    [[ $HOSTTYPE-$OSTYPE == @(x86_64|aarch64)-linux* ]] || { echo "dist/ has nothing for this machine, $HOSTTYPE-$OSTYPE"; return; }
    for file in MADE-FROM SHA256SUMS "${files[@]}"; do
        [ -f "dist/$file" ] || { echo "there is no dist/$file"; return; }
    done
    mapfile -t names < <(differing dist/MADE-FROM "$@")
    if [ ${#names[@]} -gt 0 ]; then
        echo "${names[0]} is not what dist/ was made from$([ ${#names[@]} -eq 1 ] || echo "; in all ${#names[@]} differ")"
        return
    fi
    mapfile -t names < <(cd dist && sha256sum "${files[@]}" | unlike SHA256SUMS)
    [ ${#names[@]} -eq 0 ] || echo "dist/${names[0]} is not the file of dist/SHA256SUMS"
}
