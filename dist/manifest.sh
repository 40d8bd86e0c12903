# shellcheck shell=bash disable=SC2154
# What ./install put below a prefix. It reads this file after dist/common.sh.
#
# PREFIX/share/mogyarsu/manifest has a line for each file, `file SUM FOLDER PATH`, and for each link, `link TARGET FOLDER PATH`. FOLDER is
# prefix, or for what does not lie there libdir or pythondir, and PATH lies below it. So what was installed can be moved, and no line
# leads elsewhere. What the manifest does not name, or what was changed, belongs to someone else. So 0.3.0, which wrote none, is known by
# the sums of its files.

known_sums=$dist/installed-0.3.0
line_form='^((file [0-9a-f]{64})|(link [A-Za-z0-9._-]+)) (prefix|libdir|pythondir) ([^/].*)$'
# What ./install may have put at a place: `file SUM` or `link TARGET`, with a newline before and after each.
declare -A ours=()
# The places that the manifest has outside of the prefix.
declare -A outside=()
# What is put at a place now, and the places in their order.
declare -A due=()
places=()
# What is at the place that was looked at last, in the same form; empty if there is nothing.
found=

set_manifest() {
    manifest=$prefix/share/mogyarsu/manifest
    manifest_file=$destination$manifest
}

read_manifest() {
    local line
    [ -e "$manifest_file" ] || [ -L "$manifest_file" ] || return 0
    if [ -L "$manifest_file" ] || [ -L "${manifest_file%/*}" ] || [ ! -f "$manifest_file" ]; then
        refuse_manifest 'it is no file, or a link leads to it'
    fi
    while IFS= read -r line || [ -n "$line" ]; do
        [[ $line =~ $line_form ]] || refuse_manifest "$(printf %q "$line")"
        [[ /${BASH_REMATCH[5]}/ != */../* ]] || refuse_manifest "$(printf %q "$line")"
        add_line "${BASH_REMATCH[1]}" "${!BASH_REMATCH[4]}/${BASH_REMATCH[5]}"
        [ "${BASH_REMATCH[4]}" = prefix ] || outside[${!BASH_REMATCH[4]}/${BASH_REMATCH[5]}]=yes
    done <"$manifest_file"
}

add_line() {
    ours[$2]=${ours[$2]:-$'\n'}$1$'\n'
}

refuse_manifest() {
    echo "install: $(short "$manifest_file") is refused: $1" >&2
    exit 1
}

# Notes what is put at a place.
note() {
    due[$2]=$1
    places+=("$2")
}

# The line of the manifest for what is at a place.
line_of() {
    local folder path
    for folder in prefix libdir pythondir; do
        path=${2#"${!folder}"/}
        [[ $path == "$2" || $path == *$'\n'* ]] || break
    done
    echo "$1 $folder $path"
}

# Writes the manifest of what is put now, and after `both` also of what was put before.
write_manifest() {
    local place what
    for place in "${places[@]}"; do
        line_of "${due[$place]}" "$place"
    done
    [ "${1:-}" = both ] || return 0
    for place in "${!ours[@]}"; do
        while IFS= read -r what; do
            [ -z "$what" ] || [ "$what" = "${due[$place]:-}" ] || line_of "$what" "$place"
        done <<<"${ours[$place]}"
    done
}

# ---- what is there

look_there() {
    local file=$destination$1
    found=
    if [ -L "$file" ]; then
        found="link $(readlink "$file")"
    elif [ -f "$file" ]; then
        found="file $(sum_of "$file")"
    elif [ -e "$file" ]; then
        found=folder
    fi
}

# Whether what was found at a place is what ./install put there.
is_ours() {
    [[ ${ours[$1]:-} == *$'\n'"$found"$'\n'* ]] || is_known "$1"
}

# Whether it is of 0.3.0. Two of its files have a line with the prefix, which does not count.
is_known() {
    local name=${1##*/} sum=${found#file }
    case "$name $found" in
        'libti.so link libti.so.0.3' | 'libti.so.0.3 link libti.so.0.3.0') return 0 ;;
        *' link '* | *' folder') return 1 ;;
        ti.pc* | __init__.py*) sum=$(sed '/^prefix=/d; /^LIBRARY = /d' "$destination$1" | sum_of /dev/stdin) ;;
    esac
    [ -f "$known_sums" ] && grep -qxF -- "$sum $name" "$known_sums"
}
