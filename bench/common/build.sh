# What the scripts of bench share. Where it is read, `top` is the top of the repository and `work` a new folder.

# compile FLAG.. FILE: compiles plain Rust as a release does that has to be fast: in one unit, and without unwinding.
compile() {
    rustc --edition 2021 -O -C codegen-units=1 -C panic=abort "$@"
}

# build_plain FILE..: compiles these files of bench, named without their ending, to programs in plain Rust.
build_plain() {
    for file; do
        compile -o "$work/${file##*/}" "$top/bench/$file.rs"
    done
}

# build_rattle FILE CRATE..: proves and builds this file of bench, a program in Rattle, in a copy of the crates that it stands on.
build_rattle() {
    file=$1
    program=${file##*/}
    shift
    git init -q "$work"
    mkdir -p "$work/crates/$program/src"
    cp "$top/bench/$file.rattle" "$work/crates/$program/src/main.rt"
    for crate; do
        cp -a "$top/crates/$crate" "$work/crates/"
        grep "^$crate:" "$top/crates.txt"
    done >"$work/crates.txt"
    echo "$program: $* anyhow" >>"$work/crates.txt"
    if ! (cd "$work/crates/$program" && rt run </dev/null) >"$work/log" 2>&1; then
        cat "$work/log" >&2
        exit 1
    fi
}

# build_trees: the program of the operations of the trees, in both.
build_trees() {
    build_plain trees/plain
    build_rattle trees/trees trace_types id_tree event_tree stamp_codec
}
