# Sourced by bench/run in the project's folder with the name of a benchmark, runs or rows: builds the call that it times
# as a static library and runs it in one process with its baseline. The crate that exports the call, NAME_call.txt, is
# put beside copies of the project's own in a folder that is removed again, so that it is no crate of the project; what
# is proved here is not proved there again, since rt takes what it kept of the same files.
name=$1
declare -A crate=([runs]=runs [rows]=price_row)
prove "${crate[$name]}" lib

exports=$(mktemp -d)
trap 'rm -rf "$exports"' EXIT
call=$exports/crates/${name}_call
mkdir -p "$call/src"
cp "bench/${name}_call.txt" "$call/src/lib.rt"
list "${crate[$name]}"
for below in "${!counted[@]}"; do
    mkdir "$exports/crates/$below"
    for part in src specs proofs; do
        [ ! -d "crates/$below/$part" ] || cp -r "crates/$below/$part" "$exports/crates/$below/"
    done
    echo "$below:${needs[$below]}"
done > "$exports/crates.txt"
echo "${name}_call staticlib: ${crate[$name]} instance" >> "$exports/crates.txt"
echo "bench: building the library and the baseline" >&2
(cd "$call" && exec rt lib) > "target/${name}_call.log" 2>&1 ||
    fail "the call could not be exported: see target/${name}_call.log"
archive=$call/out/lib${name}_call.a
rustc --edition 2024 -O -o "target/time_$name" "bench/$name.rs" -L native="$call/out" -l "static=${name}_call"
"target/time_$name"
if command -v size > /dev/null; then
    echo "code of the call: $(size -t "$archive" | awk 'END { print $1 }') bytes"
fi
