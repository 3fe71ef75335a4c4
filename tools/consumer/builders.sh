# `tools/try-consumer builders`: a repository over the clone $work/linsjoar, whose crate `builders_types` has made types, and whose
# crate `builders` builds messages by them.
try_builders() {
    local clone=$work/linsjoar crates=$work/consumer/crates name
    local users=$clone/tools/consumer/builders types=$crates/builders_types/src crate=$crates/builders
    copy_crates "$clone" "$work/consumer"
    take_proved "$crates"
    # Loops over `&list` want the crate of that impl, capnp_wire, too.
    printf '%s\n' 'builders_types: capnp' 'builders: anyhow builders_types capnp capnp_wire' >> "$work/consumer/crates.txt"

    "$clone/tools/compile" "$users"/{branch,order,patient}.capnp "$clone/crates/capnpc_sample/schemas/addressbook.capnp" "$types" \
        > "$work/said" 2>&1 || fail 'the types are not written'
    write_lib "$types" 'The types of four schemas.'
    mkdir -p "$crate/src" "$crate/proofs/branches/+tree"
    for name in main book branches changed loops orders patients; do
        cp "$users/$name" "$crate/src/$name.rt"
    done
    sed -E 's/<S: ReaderSegments>//; s/_, S>/_, OwnedSegments>/; /^pub fn outwards/,$s/ in (.*)\.iter\(\) \{/ in \1 {/
        s/ in (.*)\.iter\(\) \{/ in \&\1 {/; s/^use capnp::message::ReaderSegments;/use capnp::serialize::OwnedSegments;/' "$users/orders" > "$crate/src/owned_orders.rt"
    cd "$crate"
    rt try > "$work/printed" 2> "$work/said" || fail 'the program of made builders fails'
    expect_printed "$work/printed" "$users/printed" 'the program of made builders'
    echo "try-consumer: the program of made builders prints what it should ($SECONDS s)"

    # Of a recursion the check asks for the measure alone, whose lines it prints; the measure itself is the depth.
    cat > proofs/branches/+tree/Invariants.antt << 'MEASURE'
use Rattle.builders.proofs.branches.+tree.Given as goal

abbrev pub decreases-tree : goal.decreases-tree
decreases-tree g l = l.depth
MEASURE
    expect_proved 'the users of made builders are'
    echo "try-consumer: the users of made builders are proved with a measure and no other proof file ($SECONDS s)"
}
