# What the tools in bash share. Each reads it first, below its head, by `. "$(dirname "$0")/prelude.sh"`. `root` is then the top
# of the repository and `tool` the tool's name. Called with --help alone, a tool prints its head.
#
#   libraries                            `capnp`, the crate that programs list, and all below it, each after those that it lists
#   temporary NAME                       makes a folder that is removed in the end, and sets NAME to it
#   take_proved CRATES                   copies what was proved here of the library's crates into these; what is of other sources is proved anew
#   write_lib FOLDER WHAT                writes FOLDER/lib.rt, whose modules are the other files there
#   quietly SAID N COMMAND..             runs it, with all that it says in the file SAID; where it fails prints the last N lines, and ends
#   say TEXT..                           says it on standard error, after the tool's name
set -euo pipefail
root=$(cd "$(dirname "${BASH_SOURCE[0]}")/.." && pwd)
tool=$(basename "$0")
temporaries=()
# shellcheck disable=SC2034
libraries=(capnp_frame capnp_pack capnp_layout capnp_wire capnp_values capnp_orphans capnp_build capnp_message capnp)

print_head() {
    sed -n '2,/^[^#]/s/^# \{0,1\}//p' "$0"
}

if [ $# -eq 1 ] && [ "$1" = --help ]; then
    print_head
    exit
fi

temporary() {
    temporaries+=("$(mktemp -d)")
    printf -v "$1" %s "${temporaries[-1]}"
    trap 'rm -rf "${temporaries[@]}"' EXIT
}

take_proved() {
    local name
    for name in "${libraries[@]}"; do
        if [ -e "$root/crates/$name/out/rlib/stamp" ]; then
            mkdir -p "$1/$name/out"
            cp -a "$root/crates/$name/out/rlib" "$1/$name/out"
        fi
    done
}

write_lib() {
    {
        printf '//! %s\n#![tactic(auto)]\n\n' "$2"
        (cd "$1" && ls -- *.rt) | sed 's/\(.*\)[.]rt/pub mod \1;/'
    } > "$1/lib"
    mv "$1/lib" "$1/lib.rt"
}

quietly() {
    if ! "${@:3}" > "$1" 2>&1; then
        tail -n "$2" "$1" >&2
        exit 1
    fi
}

say() {
    echo "$tool: $*" >&2
}
