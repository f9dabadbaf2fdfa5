# How the oracles are built. Whoever reads this file sets `name` and goes to the repository's root before. `cut` names the program that
# cuts out the Rust's items, where it is another's.
set -e
out=target/oracle/$name
mkdir -p "$out"
usage() {
    sed -n '2,/^name=/s/^# //p' "${script:-oracle/$name/run}"
    exit 2
}
# build PROGRAM [FLAGS]
build() {
    sources=${RS_PBRT:-../shared/docs/src}
    if ! [ -d "$sources" ]; then
        echo "the sources of rs-pbrt are not in $sources; RS_PBRT names a checkout (NOTICE says where they are) or a folder of its files" >&2
        exit 2
    fi
    "${RUSTC:-rustc}" --edition 2021 -O -o "$out/cut" "${cut:-oracle/$name/cut.rs}"
    "$out/cut" "$sources" "$out/reference.rs"
    program=$1
    shift
    REFERENCE="$PWD/$out/reference.rs" "${RUSTC:-rustc}" --edition 2021 -O "$@" -o "$out/$program" "oracle/$name/$program.rs"
}
# proved_program NAME: proves and builds crates/NAME/out/NAME
proved_program() {
    (cd "crates/$1" && rt run < /dev/null)
}
# proved_archive NAME: proves and builds crates/NAME/out/libNAME.a
proved_archive() {
    (cd "crates/$1" && rt lib)
}
# quietly COMMAND: what it says goes to a file, and is shown where it fails
quietly() {
    "$@" > "$out/quietly.log" 2>&1 || { cat "$out/quietly.log"; exit 1; }
}
