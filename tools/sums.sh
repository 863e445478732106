# For ./guacgate, tools/release and tools/package, which have set `top`: sums of files, and the files that name them.
# release/manifest and crates/NAME/out/NAME.made have lines `NAME VALUE`.
manifest="$top/release/manifest"
declare -A said

sum_of() { sha256sum <"$1" 2>/dev/null | cut -d ' ' -f 1; }

# Reads the lines of a file into `said`. It fails where one is in another form or a name stands twice.
read_lines() {
    local name value
    said=()
    [ -r "$1" ] || return 1
    while read -r name value; do
        [[ "$name" =~ ^[a-z-]+$ && -n "$value" && -z "${said[$name]}" ]] || return 1
        said[$name]="$value"
    done <"$1" 2>/dev/null
}

# Whether `said` has a sum of 64 digits for each of these names.
has_sums() {
    local name
    for name in "$@"; do [[ "${said[$name]}" =~ ^[0-9a-f]{64}$ ]] || return 1; done
}

# Reads the manifest into `said`; it fails where that isn't a whole one.
read_manifest() {
    read_lines "$manifest" && has_sums sources guacgate guacgate-stripped look look-stripped &&
        [ -n "${said[version]}" ] && [ -n "${said[kit]}" ]
}

# Whether the crate's program was built here, and of the sources with this sum.
is_built() {
    local built="$top/crates/$1/out/$1"
    [ -x "$built" ] && read_lines "$built.made" && [ "${said[sources]}" = "$2" ] &&
        [ "${said[program]}" = "$(sum_of "$built")" ]
}

# Keeps that the crate's program was built here by this kit, of the sources with this sum.
keep_built() {
    local built="$top/crates/$1/out/$1"
    printf 'sources %s\nprogram %s\nkit %s\n' "$2" "$(sum_of "$built")" "$3" >"$built.made"
}

# Writes a program without its symbols, as a package has it.
strip_program() { strip --remove-section=.comment --remove-section=.note -o "$2" "$1"; }
