# What tools/install and tools/release share. Each has the folder `work`.

# Says how long it takes to build what of these isn't built yet: say_how_long FILE CRATE ..
say_how_long() {
    local missing=()
    while [ $# -gt 0 ]; do
        [ -f "$root/crates/$2/out/$1" ] || missing+=("$2")
        shift 2
    done
    [ ${#missing[@]} -eq 0 ] || python3 "$root/tools/installing/build_time.py" "$tool" "${missing[@]}"
}

# Has rt prove and build a crate, after which this file is in its folder `out`: build FILE CRATE RT..
build() {
    say "$2: ${*:3}"
    (cd "$root/crates/$2" && python3 "$root/tools/installing/watch.py" "$tool: $2" "$work/said" "${@:3}") || true
    [ -f "$root/crates/$2/out/$1" ] || { tail -n 20 "$work/said" >&2; say "$2 can't be built"; exit 1; }
}
