# To be sourced: C programs for x86-64, built with the Rattle kit alone and run on x86-64, the one processor that the kit is for.
# Functions: x86_library; x86_stale FILE; x86_cc SOURCE OBJECT [WORDS..]; x86_link PROGRAM FILE..; x86_run PROGRAM [WORDS..];
# x86_stepper STEPPER, which builds tools/steps.c, and x86_steps STEPPER PROGRAM [WORDS..], which runs a program under it; x86_exports ARCHIVE.

command -v rt >/dev/null || { echo "the Rattle kit's rt is not on the PATH" >&2; exit 2; }
[ "$(uname -m)" = x86_64 ] || { echo "the Rattle kit and compiled Rattle are for x86-64; this machine is $(uname -m)" >&2; exit 2; }
x86_root=$(git rev-parse --show-toplevel)
x86_kit=$(dirname "$(rt doc)")
x86_tools=$x86_kit/toolchain
x86_loader=$x86_tools/lib/ld-linux-x86-64.so.2
for x86_tool in "$x86_tools/bin/clang" "$x86_tools/bin/ld.lld" "$x86_kit/bin/rattle-link" "$x86_loader"; do
    [ -x "$x86_tool" ] || { echo "this Rattle kit ($(rt version)) has no $x86_tool" >&2; exit 2; }
done

x86_archive=$x86_root/target/staticlib/libhost.a

x86_stale() { # FILE is missing, or a source of the crates is newer; what rt keeps in out/ is no source
    [ ! -f "$1" ] || [ -n "$(find "$x86_root/crates" "$x86_root/crates.txt" -name out -prune -o -name '*.[rat]*t' -newer "$1" -print)" ]
}

# Proves the library, over what rt kept in out/ of earlier proofs, and builds it; rt leaves it in its crate's out/. For every x86-64 processor: left to
# itself rt builds for x86-64-v2.
x86_build() {
    mkdir -p "$x86_root/target/staticlib"
    (cd "$x86_root/crates/host" && rt lib --cpu x86-64) && cp "$x86_root/crates/host/out/libhost.a" "$x86_archive"
}

x86_library() { # proves and builds the library where it is missing or a source is newer, with a line a crate
    x86_stale "$x86_archive" || return 0
    echo "proving and building the library (some minutes the first time)" >&2
    mkdir -p "$x86_root/target"
    x86_log=$x86_root/target/staticlib.log
    { x86_build 2>&1 || echo "rt lib: FAILED"; } | tee "$x86_log" | grep --line-buffered '^rt: ' >&2 || :
    [ "$(tail -n 1 "$x86_log")" != "rt lib: FAILED" ] || { cat "$x86_log" >&2; return 1; }
}

x86_cc() {
    x86_from=$1 x86_to=$2
    shift 2
    "$x86_tools/bin/clang" --target=x86_64-unknown-linux-gnu -std=c11 -O2 -fPIC -Wall -Wextra -Werror -nostdinc -isystem "$x86_root/tools/libc" \
        -I "$x86_root/include" "$@" -c "$x86_from" -o "$x86_to"
}

x86_link() { # the program's own object first, archives after it
    x86_to=$1
    shift
    "$x86_kit/bin/rattle-link" --target x86_64-unknown-linux-gnu --toolchain "$x86_tools" -o "$x86_to" "$@" 2>"$x86_to.link" ||
        { cat "$x86_to.link" >&2; return 1; }
}

x86_run() {
    "$x86_loader" --library-path "$x86_tools/lib" "$@"
}

x86_stepper() {
    x86_cc "$x86_root/tools/steps.c" "$1.o"
    x86_link "$1" "$1.o"
}

x86_steps() {
    x86_stepped=$1
    shift
    x86_run "$x86_stepped" "$x86_loader" --library-path "$x86_tools/lib" "$@"
}

x86_exports() { # the kit has no nm of that name; our C names occur nowhere else in an archive
    grep -ao 'knobspindle_[a-z0-9_]*' "$1" | sort -u
}
