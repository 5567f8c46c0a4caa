# shellcheck shell=sh
# Where the Rattle kit stands, for the scripts beside this file: they read it by '. kit.sh' after they have set `me`. The kit
# runs on x86-64 alone, and so does what it links.

fail() { printf '%s: %s\n' "$me" "$*" >&2; exit 2; }

root=$(cd "$(dirname "$0")/.." && pwd -P)
rt=$(command -v rt) || fail 'the Rattle kit is not here: no command rt'
# shellcheck disable=SC2034
kit=$(dirname "$(dirname "$(readlink -f "$rt")")")
[ "$(uname -m)" = x86_64 ] || fail 'the Rattle kit runs on x86-64 alone'

# How `crates.txt` has a crate: 'staticlib' or nothing, and the libraries that it cites.
# shellcheck disable=SC2034
row_of() { # CRATE
    row=$(sed -n "s/^$1\( staticlib\)\{0,1\}: *//p" "$root/crates.txt")
    kind=$(sed -n "s/^$1 \(staticlib\):.*/\1/p" "$root/crates.txt")
    grep -q "^$1\( staticlib\)\{0,1\}:" "$root/crates.txt" || fail "no crate '$1' in crates.txt"
}

# A toolchain like the kit's, in FOLDER/toolchain, but its compiler keeps each module that it is given, and how it is to compile
# it: FOLDER/1.bc and FOLDER/1.words are the first. The folder stands outside the checkout, in which rt ci takes no links.
keeping_toolchain() { # FOLDER
    mkdir -p "$1/toolchain/bin"
    ln -s "$kit/toolchain/lib" "$1/toolchain/"
    for thing in "$kit"/toolchain/bin/*; do
        [ "$(basename "$thing")" = clang ] || ln -s "$thing" "$1/toolchain/bin/"
    done
    cat >"$1/toolchain/bin/clang" <<EOS
#!/bin/sh
number=1
while [ -e "$1/\$number.bc" ]; do number=\$((number + 1)); done
for word in "\$@"; do case \$word in *.bc) cp "\$word" "$1/\$number.bc" ;; esac; done
echo "\$*" >"$1/\$number.words"
exec "$kit/toolchain/bin/clang" "\$@"
EOS
    chmod +x "$1/toolchain/bin/clang"
}

as_text() { # MODULE.bc OUT.ll
    "$kit/toolchain/bin/clang" --target=x86_64-unknown-linux-gnu -Xclang -disable-llvm-passes -S -emit-llvm -x ir "$1" -o "$2"
}
