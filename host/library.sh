#!/bin/sh
# Writes host/target/library/libentry.a, the proved entry points for programs of this machine to link: what rt makes of the crate entry_c.
#
# `library.sh sanitized` writes host/target/sanitized/libentry.a: the module that rt hands to its clang, compiled once more by the same clang, with a
# check by AddressSanitizer before each load and store that is left when it is optimised, and round each local and each table. `make soak` links
# it, with the runtime of gcc.
set -eu
cd "$(dirname "$0")/.."
kit=$(dirname "$(dirname "$(readlink -f "$(command -v rt)")")")
out=$PWD/host/target/library
module=$out/module.bc
mkdir -p "$out"

library() {
    (cd crates/entry_c && "$@" lib) >"$out/log" 2>&1 || { cat "$out/log"; exit 1; }
}

# Keeps the module that rt compiles, by a kit that is this one but for its clang, which puts a copy aside before it compiles.
keep_module() {
    mirror=$out/mirror/kit
    rm -rf "$out/mirror"
    mkdir -p "$mirror/bin" "$mirror/toolchain/bin"
    cp "$kit/bin/rt" "$kit/bin/rtlib.py" "$mirror/bin"
    for part in . bin toolchain toolchain/bin; do
        for file in "$kit/$part"/*; do
            [ -e "$mirror/$part/${file##*/}" ] || ln -s "$file" "$mirror/$part/${file##*/}"
        done
    done
    rm "$mirror/toolchain/bin/clang"
    cat >"$mirror/toolchain/bin/clang" <<EOF
#!/bin/sh
[ ! -e module.bc ] || cp module.bc "$module"
exec "$kit/toolchain/bin/clang" "\$@"
EOF
    chmod +x "$mirror/toolchain/bin/clang"
    rm -f crates/entry_c/out/libentry_c.a
    library "$mirror/bin/rt"
    rm -rf "$out/mirror"
}

if [ "${1:-}" = sanitized ]; then
    folder=$PWD/host/target/sanitized
    mkdir -p "$folder"
    keep_module
    "$kit/toolchain/bin/clang" --target="$(gcc -dumpmachine)" -O3 -fPIC -ffunction-sections -Wno-override-module -fsanitize=address \
        -mllvm -force-attribute=sanitize_address -c -x ir "$module" -o "$folder/entry.o" 2>>"$out/log"
    rm -f "$folder/libentry.a"
    ar rcs "$folder/libentry.a" "$folder/entry.o"
else
    library rt
    cp crates/entry_c/out/libentry_c.a "$out/libentry.a"
fi
