# shellcheck shell=bash disable=SC2034,SC2154
# What ./ti, ./install, ./package and the scripts beside this file share: which program, library and page are taken. A script reads
# this file after it has set `root`, the top of the repository.
#
# What was proved and built here comes first, if it is newer than its sources. What lies in dist/ comes second, if it fits: if
# each file has the sum that dist/record says, and the sources of this checkout have theirs. If TI_PROVED_ONLY is set, as
# --prove and ./gate set it, nothing in dist/ is looked at.

# What a script here calls is to import no module of another folder, and to ask git about no other repository.
users_pythonpath=${PYTHONPATH-}
unset PYTHONPATH "${!GIT_@}"

dist=$root/dist
record=$dist/record
# What was found out is kept here. Git ignores it.
kept=$dist/out
made_program=$root/crates/ti/out/ti
made_archive=$root/crates/ti_c/out/libti_c.a
made_page=$root/page/out/page.html
cpuinfo=/proc/cpuinfo
# What the file in dist/ lacks, as a part of a sentence; empty if dist/ was not looked at.
why=

# ---- the sources

# The line of each crate in crates.txt.
declare -A row=()
# The crates that are looked at, and the folders of their sources.
crates=() folders=()

read_rows() {
    local line
    [ "${#row[@]}" -eq 0 ] || return 0
    while IFS= read -r line || [ -n "$line" ]; do
        [[ ! $line =~ ^([A-Za-z0-9_]+)(\ staticlib)?: ]] || row[${BASH_REMATCH[1]}]=$line
    done <"$root/crates.txt"
}

# Adds a crate after those that it names.
add_crate() {
    local name
    for name in ${row[$1]#*:}; do
        [[ -z ${row[$name]-} || " ${crates[*]} " == *" $name "* ]] || add_crate "$name"
    done
    crates+=("$1")
}

# Looks at a crate with all that it stands on.
look_at() {
    local name part
    read_rows
    crates=() folders=()
    add_crate "$1"
    for name in "${crates[@]}"; do
        for part in src specs proofs; do
            [ ! -d "$root/crates/$name/$part" ] || folders+=("crates/$name/$part")
        done
    done
}

# Looks at what the page is made of: the program, and beside it what page/make reads.
look_at_page() {
    look_at ti
    folders+=(page/engine page/entries page/make page/source rust/library rust/make rust/targets.py examples/linux docs/ti-faults.7 docs/ti-findings.7)
    [ ! -f "$root/LICENSE" ] || folders+=(LICENSE)
}

# Looks at what the module for Python is made of: the library, and beside it what is compiled over it.
look_at_module() {
    look_at ti_c
    folders+=(include/ti.h python/lp64.h python/mogyarsu/_ti.c)
}

# The sum over the sources of the crates that are looked at: over their lines of crates.txt, and over the names and sums of the
# files in their src, specs and proofs.
sum_of_sources() {
    local name
    {
        for name in "${crates[@]}"; do
            echo "${row[$name]}"
        done | LC_ALL=C sort
        (cd "$root" && find "${folders[@]}" -type f -print0 | LC_ALL=C sort -z | xargs -0 sha256sum)
    } | sha256sum | cut -d ' ' -f 1
}

sum_of() {
    sha256sum <"$1" | cut -d ' ' -f 1
}

# Whether a file is there and newer than the sources of the crates that are looked at.
is_fresh() {
    [ -f "$1" ] && [ -z "$(cd "$root" && find crates.txt "${folders[@]}" -type f -newer "$1" -print | head -n 1)" ]
}

# ---- what lies in dist/

# The crate of which a file in dist/ is made.
crate_of() {
    if [ "${1##*/}" = ti ]; then echo ti; else echo ti_c; fi
}

# Whether a file in dist/ fits. If not, `why` says what it lacks.
fits() {
    local file=$1 seen
    is_no_link "$file" && is_no_link record || return 1
    seen=$(times_of "$file")
    [ -n "$seen" ] && [ -f "$kept/$file.fits" ] && [ "$(<"$kept/$file.fits")" = "$seen" ] && return 0
    has_sums "$file" || return 1
    if [ "$file" = ti ]; then runs_here || return; fi
    [ -z "$seen" ] || keep "$file.fits" "$seen"
}

# Whether a file in dist/ is no link, whose target could change without a trace in what is kept.
is_no_link() {
    [ -L "$dist/$1" ] || return 0
    why="dist/$1 is a link"
    return 1
}

# Names, sizes and times of all that the answer depends on, as one sum, and this machine; nothing if find cannot print them.
times_of() {
    local times
    times=$(cd "$root" && find crates.txt "${folders[@]}" dist/common.sh dist/record "dist/$1" -type f -printf '%p %s %T@ %C@\n' 2>/dev/null)
    [ -z "$times" ] || echo "$(printf '%s' "$times" | sha256sum | cut -d ' ' -f 1) $HOSTNAME"
}

# Whether a file in dist/ has its sum by the record, and the sources have theirs.
has_sums() {
    local word name sum sources found=
    while read -r word name sum _ sources; do
        [ "$word $name" != "file $1" ] || found="$sum $sources"
    done < <(cat "$record" 2>/dev/null)
    read -r sum sources <<<"$found"
    if [ -z "$found" ] || [ ! -f "$dist/$1" ]; then
        why="there is no dist/$1"
    elif [ "$(sum_of_sources)" != "$sources" ]; then
        why='the sources differ from those of dist/'
    elif [ "$(sum_of "$dist/$1")" != "$sum" ]; then
        why="dist/$1 is not the file that dist/record names"
    else
        return 0
    fi
    return 1
}

# Keeps a line for later calls, which write it whole or not at all. Nothing is kept in a checkout that can't be written.
keep() {
    local new=
    [ -w "$dist" ] || return 0
    if ! { make_kept && new=$(mktemp "$kept/$1.XXXXXX") && echo "$2" >"$new" && chmod 644 "$new" && mv -fT "$new" "$kept/$1"; } 2>/dev/null; then
        rm -f "$new"
        echo "${0##*/}: dist/out cannot be written, so the sums of dist/ are taken at each call" >&2
    fi
}

# Makes the folder of what is kept, in which nobody else may write.
make_kept() {
    [ ! -L "$kept" ] && mkdir -p "$kept" && chmod 755 "$kept"
}

# ---- whether the program runs on this machine

# Whether the program in dist/ runs here. If not, `why` says why; the status is 2 if a program that is proved here would not run either.
runs_here() {
    local said status=0 lacking
    is_its_machine || return
    said=$("$dist/ti" --version 2>&1 </dev/null) || status=$?
    [ "$status" -ne 0 ] || return 0
    lacking=$(lacking_flags)
    if is_old_glibc; then
        why="dist/ti needs glibc 2.34 or later, and here is ${glibc:-none}"
    elif [ -n "$lacking" ]; then
        why="dist/ti needs a processor of x86-64-v2, and this one lacks $lacking"
    else
        said=${said%%$'\n'*}
        why="dist/ti does not run here, with status $status: ${said##*: }"
        return 1
    fi
    return 2
}

is_its_machine() {
    local machine
    machine=$(uname -sm)
    [ "$machine" != 'Linux x86_64' ] || return 0
    why="dist/ti is for Linux x86_64, and this is $machine"
    return 2
}

is_old_glibc() {
    glibc=$(getconf GNU_LIBC_VERSION 2>/dev/null)
    [[ ! $glibc =~ ^glibc\ ([0-9]+)\.([0-9]+) ]] || ((BASH_REMATCH[1] == 2 && BASH_REMATCH[2] < 34))
}

# What this processor lacks of x86-64-v2, by the names of Linux.
lacking_flags() {
    local has flag lacking=()
    has=" $(grep -m 1 '^flags' "$cpuinfo" 2>/dev/null) "
    [ -n "${has// /}" ] || return 0
    for flag in cx16 lahf_lm pni popcnt sse4_1 sse4_2 ssse3; do
        [[ $has == *" $flag "* ]] || lacking+=("$flag")
    done
    echo "${lacking[*]}"
}

# ---- the choice

# Sets `program` to the one to run. The status is not 0 if it is to be proved first, and 2 if it would not run here.
choose_program() {
    look_at ti
    program=$made_program
    ! is_fresh "$program" || return 0
    [ -z "${TI_PROVED_ONLY:-}" ] || return 1
    fits ti || return
    program=$dist/ti
}

# Sets `archive` to the library for C, and `shared` to the shared object, which is empty if it has to be linked. The status is not
# 0 if they are to be proved first.
choose_library() {
    look_at ti_c
    archive=$made_archive shared=
    if is_fresh "$archive"; then
        [ -z "${TI_PROVED_ONLY:-}" ] && ! command -v gcc >/dev/null || return 0
    fi
    [ -z "${TI_PROVED_ONLY:-}" ] || return 1
    fits libti.a && fits libti.so || return
    archive=$dist/libti.a shared=$dist/libti.so
}

# Sets `page` to the page; it is empty, and the status not 0, if there is none of these sources. It is not proved, so it is never made
# for this.
choose_page() {
    look_at_page
    page=$made_page
    ! is_fresh "$page" || return 0
    page= why="it was not made here"
    [ -z "${TI_PROVED_ONLY:-}" ] && fits page.html || return
    page=$dist/page.html
}

# Sets `module` to the compiled module for Python of this machine; it is empty, and the status not 0, if dist/ has none of these
# sources. It is not proved.
choose_module() {
    look_at_module
    module=
    [ -z "${TI_PROVED_ONLY:-}" ] && fits _ti.abi3.so || return
    module=$dist/_ti.abi3.so
}

# Says once at a terminal that the program is that of dist/.
tell_once() {
    local _ kit
    [ -t 2 ] && [ ! "$kept/told" -nt "$record" ] || return 0
    read -r _ kit <"$record"
    echo "${0##*/}: this is dist/ti, which was proved and built of these sources with $kit; ./ti --prove makes it here" >&2
    keep told "$kit"
}

# ---- the shared object

# Links the shared object for C from the archive, with a compiler if one is named.
link_library() {
    local scratch
    scratch=$(mktemp) || return 1
    # Only the calls of the header are seen. All is bound at the start, and what the loader has filled in is read-only then.
    printf 'TI_%s {\n    global: ti_*;\n    local: *;\n};\n' "$(series)" >"$scratch"
    "${3:-gcc}" -shared -o "$2" -Wl,-soname,"libti.so.$(series)" -Wl,--version-script="$scratch" -Wl,-z,relro,-z,now \
        -Wl,--whole-archive "$1" -Wl,--no-whole-archive || { rm "$scratch" && return 1; }
    rm "$scratch"
}

version() {
    sed -n 's/.*VERSION: &str = "\([0-9.]*\)".*/\1/p' "$root/crates/ti_base/src/version.rt"
}

series() {
    local whole
    whole=$(version)
    echo "${whole%.*}"
}

# What links the shared object, in one line.
linkers() {
    echo "$(gcc --version | head -n 1), $(ld --version | head -n 1), $(getconf GNU_LIBC_VERSION)"
}
