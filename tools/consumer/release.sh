# `tools/try-consumer release [ARCHIVE]`: two repositories that have an archive of tools/release unpacked, by each of the two ways of
# docs/GUIDE.md. In each `rt run` proves, builds and runs the address book of that page, from nothing.

# Makes the kit in FOLDER/rattle with nothing kept beside it: `rt` keeps what it proved beside the folder that its own file is in.
make_kit() {
    local part kit
    kit=$(dirname "$(rt doc)")
    mkdir -p "$1/rattle"
    for part in "$kit"/*; do
        case ${part##*/} in
            bin) cp -a "$part" "$1/rattle" ;;
            *) ln -s "$part" "$1/rattle" ;;
        esac
    done
}

# Proves, builds and runs the address book of this folder, which has the library's crates in CRATES: run_book WAY CRATES
run_book() {
    local begun=$SECONDS kept
    kept=$(mktemp -d "$work/kit.XXXX")
    make_kit "$kept"
    # shellcheck disable=SC2016
    (cd book && PATH=$kept/rattle/bin:$PATH python3 "$root/tools/installing/watch.py" 'try-consumer: book' "$work/said" \
        sh -c 'rt run < "$1" > "$2"' - "$work/lines" "$work/printed") || fail "by $1 the address book is not built"
    expect_printed "$work/printed" "$work/people" "by $1 the address book"
    # What rt keeps of a crate that it proves.
    if ls -d "$2"/capnp*/out/incremental >&2 2> "$work/said"; then
        fail "by $1 these crates were proved anew"
    fi
    echo "try-consumer: by $1 the address book alone is proved, built and run ($((SECONDS - begun)) s)"
}

try_release() {
    local archive linsjoar=$work/labels/vendor/linsjoar
    if [ $# -gt 0 ]; then
        archive=$(realpath "$1")
    else
        "$root/tools/release" "$work/archive"
        archive=$(find "$work/archive" -name '*.tar.*' ! -name '*.sha256')
    fi
    mkdir -p "$linsjoar" "$work/copies"
    tar --extract --file="$archive" --directory="$linsjoar" --strip-components=1
    (cd "$linsjoar" && sha256sum --quiet --check SHA256SUMS)
    cat "$linsjoar/RELEASE"
    "$linsjoar/bin/capnp_ls" --help > "$work/printed"
    echo "try-consumer: the archive is unpacked, and its checksums are right ($SECONDS s)"

    # The first way: the crates' folders with their lines of crates.txt.
    git init -q "$work/copies"
    copy_crates "$linsjoar" "$work/copies"
    printf '%s\n' 'book_types: capnp' 'book: anyhow book_types capnp' >> "$work/copies/crates.txt"
    write_book "$work/copies/crates" "$linsjoar"
    cd "$work/copies/crates"
    run_book 'copied crates' "$work/copies/crates"

    # The second way: the folder vendor/linsjoar, and labels.
    git init -q "$work/labels"
    write_book "$work/labels" "$linsjoar"
    cd "$work/labels"
    label book_types //vendor/linsjoar/crates/capnp
    label book //book_types //vendor/linsjoar/crates/capnp @rattle//anyhow
    run_book 'a folder and labels' "$linsjoar/crates"
}
