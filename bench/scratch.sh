# The scratch repository of a measurement, since each crate of this one is proved by its gate. It is deleted when the
# script that sources this file ends; where SCRATCH names a folder, it is made there and stays, with its proofs.
top=$(cd "$(dirname "$0")/.." && pwd)
if [ -n "${SCRATCH:-}" ]; then
    mkdir -p "$SCRATCH"
    work=$(cd "$SCRATCH" && pwd)
else
    work=$(mktemp -d)
    trap 'rm -rf "$work"' EXIT
fi

# scratch PROGRAM CRATE..: copies of these crates, and over them a crate `timed` with that program, a file or a folder of
# them. LIBRARIES names libraries of the kit that the program uses besides.
scratch() {
    rm -rf "$work/crates.txt" "$work/crates/timed/src"
    mkdir -p "$work/crates/timed/src"
    if [ -d "$1" ]; then
        for file in $(cd "$1" && ls | grep -v '\.'); do
            cp "$1/$file" "$work/crates/timed/src/$file.rt"
        done
    else
        cp "$1" "$work/crates/timed/src/main.rt"
    fi
    shift
    for crate; do
        # What was proved there stays, where there is nothing newer.
        if [ -d "$top/crates/$crate/out" ]; then
            rm -rf "$work/crates/$crate"
        fi
        rm -rf "$work/crates/$crate"/[!o]*
        cp -R "$top/crates/$crate" "$work/crates"
        grep "^$crate:" "$top/crates.txt" >>"$work/crates.txt"
    done
    echo "timed: $* ${LIBRARIES:-}" >>"$work/crates.txt"
}

# Proves, builds and runs the program without input. What it printed stands in the file "$work/told" then.
run_timed() {
    (cd "$work/crates/timed" && rt run </dev/null >"$work/told" 2>&1) || {
        cat "$work/told"
        exit 1
    }
}
