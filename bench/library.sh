# Sourced by bench/run in the project's folder: builds the library and installs it in target/, times its looks in one
# process with the baseline, and tells its size and, where there is a C compiler, the deepest stack of every function.
installed=target/library
./library "$installed" > /dev/null || exit 1
echo "bench: building the baseline" >&2
rustc --edition 2024 -O -o target/time_library bench/library.rs -L native="$installed/lib" -l static=feed_planner
target/time_library
if command -v size > /dev/null; then
    size -t "$installed/lib/libfeed_planner.a" | awk 'END {
        print "code and read-only data: " $1 " bytes; they may be 65536. Writable data: " $2 + $3 " bytes; none may be"
    }'
fi
if command -v cc > /dev/null; then
    cc -std=c11 -O1 -I "$installed/include" -o target/stack bench/stack.c "$installed/lib/libfeed_planner.a"
    target/stack examples/*.card
else
    echo "bench: cc is not on the PATH: stacks are not measured" >&2
fi
