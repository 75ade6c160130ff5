# shellcheck shell=bash
# Proving and building with the kit: progress crate by crate, the library linked and dist/ filled. Sourced
# and called in the repository's folder.
. tools/sources.sh
. tools/machines.sh

programs=(feasibility on_peak_hours statement)

# ---- how far it is

# CRATE..: how long each takes, as a share. Measured: 3.6 s and 1.3 s for each KB of its src/.
declare -A weight=()
weigh() {
    local crate bytes file
    for crate in "$@"; do
        weight[$crate]=2900
    done
    shopt -s globstar nullglob
    while read -r bytes file; do
        crate=${file#crates/} crate=${crate%%/*}
        weight[$crate]=$((${weight[$crate]} + bytes))
    done < <(for crate in "$@"; do stat -c '%s %n' "crates/$crate/src/"**/*.rt; done)
}

left_in_words() { # SECONDS
    if [ "$1" -ge 90 ]; then echo "about $((($1 + 30) / 60)) minutes left"; else echo "about $1 s left"; fi
}

# What is still to be proved, as far as is known: what has no stamp, and what stands on a crate that was
# proved anew.
declare -A due=()
find_due() { # CRATE..
    local crate stamp
    for crate in "$@"; do
        [ -f "target/stamp/$crate" ] || due[$crate]=1
    done
}

# Reads what rt says, tells crate by crate what was proved and how far it is, and the last that is said
# of a crate that is not proved.
tell() { # WHO CRATE..
    local who=$1 line name other total=$(($# - 1)) count=0 spent=0 left began=$SECONDS took said=() words
    local -A unseen=()
    shift
    weigh "$@"
    find_due "$@"
    for name in "$@"; do unseen[$name]=1; done
    while IFS= read -r line; do
        name=${line#rt: } name=${name%% *}
        case $line in
        "rt: $name proved ("*)
            unset "due[$name]" "unseen[$name]"
            count=$((count + 1)) said=()
            case $line in *"(unchanged"*) continue ;; esac
            spent=$((spent + ${weight[$name]:-0})) left=0 words=
            for other in "${!unseen[@]}"; do
                case " ${stands_on[$other]} " in *" $name "*) due[$other]=1 ;; esac
            done
            for other in "${!due[@]}"; do left=$((left + ${weight[$other]})); done
            # By this machine's pace, once it has shown one.
            took=$((SECONDS - began))
            [ "$left" -eq 0 ] || words=", $(left_in_words $((took < 5 ? left / 800 : took * left / spent)))"
            echo "$who: ${line#rt: }; $count of $total$words" >&2
            ;;
        *"NOT PROVED"*)
            printf '%s\n' "${said[@]}" "$who: ${line#rt: }" | tail -n 21 >&2
            said=()
            ;;
        "library "*": modules loaded="* | "statements "*": modules loaded="* | "fn "*": proved" | "axioms "* | "logic=proved "*) ;;
        "rt: chose "* | "rt: "*": begins with what a check kept in "*) ;;
        *) said+=("$line") ;;
        esac
    done
    case ${said[*]: -1} in "") ;; *) printf '%s\n' "${said[@]}" | tail -n 20 >&2 ;; esac
}

# ---- proving

kit_home() { dirname "$(dirname "$(readlink -f "$(command -v rt)")")"; }
kit_tools() { echo "$(kit_home)/toolchain/bin"; }

# What a crate's proof stands on: the kit, its files, its line of crates.txt, and the same of all below. Of a
# library also what was made of it, so that what stands on another build of it is made anew.
declare -A stamp_of=()
find_stamp() { # CRATE
    local crate=$1 below item
    read -ra below <<< "${stands_on[$crate]}"
    for item in "${below[@]}"; do
        [ -z "${stands_on[$item]+listed}" ] || [ -n "${stamp_of[$item]:-}" ] || find_stamp "$item"
    done
    stamp_of[$crate]=$({
        echo "$kit $crate"
        for item in "${below[@]}"; do echo "$item ${stamp_of[$item]:-}"; done # the kit's libraries have none
        (cd "crates/$crate" && { find src specs proofs -type f -exec sha256sum {} + 2> /dev/null || true; } | LC_ALL=C sort)
        case $(kind_of "$crate") in library) cat "crates/$crate/out/rlib/$crate.rlib/format" 2> /dev/null || true ;; esac
    } | sha256sum | cut -d ' ' -f 1)
}

kind_of() { # CRATE
    case $1 in
    c_*) echo staticlib ;;
    *) if [ -f "crates/$1/src/main.rt" ]; then echo program; else echo library; fi ;;
    esac
}

# What was made of a crate.
made_of() { # CRATE
    case $(kind_of "$1") in
    staticlib) echo "target/staticlib/$1.o" "target/modules/$1.bc" "target/modules/$1.bc.words" ;;
    program) echo "target/bin/$1" ;;
    library) echo "crates/$1/out/rlib/$1.rlib/format" ;;
    esac
}

# Whether the crate was proved, of these files, and what was made then is there.
is_proved() { # CRATE
    local file
    [ "$(cat "target/stamp/$1" 2> /dev/null)" = "${stamp_of[$1]}" ] || return
    for file in $(made_of "$1"); do [ -f "$file" ] || return; done
}

# Tells whether the last command proved the crate, and notes of what.
proved() { # CRATE LOG BEGAN
    find_stamp "$1"
    echo "${stamp_of[$1]}" > "target/stamp/$1"
    echo "rt: $1 proved ($((SECONDS - $3)) s)"
}
unproved() { # CRATE LOG
    rm -f "target/stamp/$1"
    cat "$2"
    echo "rt: $1 NOT PROVED"
    return 1
}

# LIBRARY..: proves these and what they stand on, lowest first, in their folders; what was proved is left.
libraries_below() {
    local crate log began
    kit=$(rt version)
    mkdir -p target/log target/stamp
    for crate in $(lowest_first "$@"); do
        find_stamp "$crate"
        if is_proved "$crate"; then
            echo "rt: $crate proved (unchanged since it was last proved)"
            continue
        fi
        log=$PWD/target/log/$crate began=$SECONDS
        if (cd "crates/$crate" && rt lib) > "$log" 2>&1; then proved "$crate" "$log" "$began"; else unproved "$crate" "$log"; return 1; fi
    done
}

# After rt ci in a tree in which nothing was built before: the libraries that it left are those that it proved,
# one over the other, and need not be proved again. rt notes of each that it built otherwise that it did.
take_proved() {
    local crate libraries=()
    for crate in "${!stands_on[@]}"; do
        [ "$(kind_of "$crate")" = library ] || continue
        if [ -f "crates/$crate/out/rlib/stamp" ] || [ ! -f "crates/$crate/out/rlib/$crate.rlib/format" ]; then return; fi
        libraries+=("$crate")
    done
    kit=$(rt version)
    mkdir -p target/stamp
    for crate in $(lowest_first "${libraries[@]}"); do
        find_stamp "$crate"
        echo "${stamp_of[$crate]}" > "target/stamp/$crate"
    done
}

# Proves a static library or a program over the libraries below it and writes what is made of it: of the first
# its object to target/staticlib and the module that this was made of to target/modules, of the second target/bin.
compiled() { # CRATE
    local crate=$1 log=$PWD/target/log/$1 began=$SECONDS
    find_stamp "$crate"
    if is_proved "$crate"; then
        echo "rt: $crate proved (unchanged since it was last proved)"
        return
    fi
    rm -f "target/stamp/$crate"
    mkdir -p target/{staticlib,modules,bin}
    case $(kind_of "$crate") in
    program) tools/compile "$crate" "target/bin/$crate" > "$log" 2>&1 || { unproved "$crate" "$log"; return 1; } ;;
    *)
        tools/compile "$crate" "target/staticlib/lib$crate.a" "target/modules/$crate.bc" > "$log" 2>&1 || { unproved "$crate" "$log"; return 1; }
        (cd target/staticlib && "$(kit_tools)/llvm-ar" x "lib$crate.a" "$crate.o")
        ;;
    esac
    proved "$crate" "$log" "$began"
}

# CRATE..: static libraries and programs, with all that they stand on; of the former as many at once as there
# are processors, four at most (RT_JOBS).
build() {
    local crate jobs=${RT_JOBS:-$(nproc)} running=0 failed=0 below
    [ -n "${RT_JOBS:-}" ] || [ "$jobs" -le 4 ] || jobs=4
    mapfile -t below < <(for crate in $(crates_of "$@"); do [ "$(kind_of "$crate")" != library ] || echo "$crate"; done)
    libraries_below "${below[@]}" || return
    for crate in "$@"; do
        [ "$running" -lt "$jobs" ] || { wait -n || failed=1; running=$((running - 1)); }
        compiled "$crate" &
        running=$((running + 1))
    done
    while [ "$running" -gt 0 ]; do
        wait -n || failed=1
        running=$((running - 1))
    done
    return "$failed"
}

# ---- the library

# The objects into target/staticlib/libcrr.a and target/sharedlib/libcrr.so, by the kit's own tools: the
# same bytes from the same sources, whatever the folder, machine or order of crates.txt. New files are
# moved into place, so that a running program keeps the old one.
link_library() { # CRATE..
    local built=target/staticlib shared=target/sharedlib members=("${@/#/target/staticlib/}")
    mkdir -p "$shared"
    rm -f "$shared/MADE-FROM"
    archive "$built/libcrr.a.new" "${members[@]/%/.o}"
    mv "$built/libcrr.a.new" "$built/libcrr.a"
    shared_library "$shared/libcrr.so.new" "$built/libcrr.a"
    mv "$shared/libcrr.so.new" "$shared/libcrr.so"
}

# ---- dist/

# Fills a folder with what was proved and built.
fill_dist() { # FOLDER
    local out=$1 program name sums
    mkdir -p "$out/$machine"
    install -m 644 target/staticlib/libcrr.a target/sharedlib/libcrr.so "$out/$machine"
    for program in "${programs[@]}"; do
        install -m 755 "target/bin/$program" "$out/$machine"
    done
    for name in "${machines[@]}"; do
        mkdir -p "$out/$name"
        install -m 644 "target/machines/$name"/* "$out/$name"
    done
    {
        echo "# What dist/ was made from, by ./library --dist: the kit, each crate with what it stands on, each"
        echo "# source file with its hash (sha256sum --check dist/MADE-FROM)."
        echo "# kit: $(rt version)"
        made_from
        page_sources
    } > "$out/MADE-FROM"
    js/page/build target/machines/wasm32/crr.wasm "$out/page.html"
    sums=$(cd "$out" && find . -type f ! -name SHA256SUMS -printf '%P\n' | LC_ALL=C sort | xargs sha256sum)
    echo "$sums" > "$out/SHA256SUMS"
}

# What the page for browsers is made from, beside crr.wasm, as lines of MADE-FROM: no source of the library.
page_sources() {
    local file files=(js/crr.mjs js/header.mjs)
    for file in js/page/*; do
        case $file in
        *.md | */test.mjs | */largest.mjs) ;; # about it
        *) [ ! -f "$file" ] || files+=("$file") ;;
        esac
    done
    sha256sum "${files[@]}"
}

# dist/'s page anew, of dist/'s crr.wasm: a change of js/ needs no proof and no kit. All else stays.
renew_page() {
    local lines
    js/page/build dist/wasm32/crr.wasm dist/page.html
    lines=$(grep -v '^[0-9a-f]*  js/' dist/MADE-FROM && page_sources)
    echo "$lines" > dist/MADE-FROM
    lines=$(cd dist && { grep -v '  \(MADE-FROM\|page.html\)$' SHA256SUMS && sha256sum MADE-FROM page.html; } | LC_ALL=C sort -k 2)
    echo "$lines" > dist/SHA256SUMS
}

made_from() {
    local crates
    mapfile -t crates < <(library_crates)
    sources "${crates[@]}" "${programs[@]}" include/crr.h
}
