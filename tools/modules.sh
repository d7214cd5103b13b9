# Sourced by lib: the module of LLVM's that the kit's compiler is given for a static library, and its code for another processor than
# x86-64. The kit compiles for x86-64 alone; the module is the same for all but for three words in it.
kit=$(tools/kit.py home)
clang=$kit/toolchain/bin/clang
room=$(mktemp -d)
trap 'rm -rf "$room"' EXIT

# The kit's toolchain once more, as links, with a compiler that keeps the module and the words it is given.
listening_toolchain() {
    [ ! -d "$room/toolchain" ] || return 0
    mkdir -p "$room/toolchain/bin" "$room/kept"
    ln -s "$kit/toolchain/lib" "$room/toolchain/lib"
    for f in "$kit"/toolchain/bin/*; do ln -s "$f" "$room/toolchain/bin/$(basename "$f")"; done
    rm "$room/toolchain/bin/clang"
    cat >"$room/toolchain/bin/clang" <<EOS
#!/bin/sh
for a; do case \$a in *.bc | *.ll) cp "\$a" "$room/kept/module.bc" && printf '%s\\n' "\$@" >"$room/kept/module.words" ;; esac; done
exec "$clang" "\$@"
EOS
    chmod +x "$room/toolchain/bin/clang"
}

# told WORD..: runs a command whose words are only of interest where it fails.
told() { "$@" >"$room/say" 2>&1 || { tail -n 20 "$room/say" >&2; return 1; }; }

# library_module CRATE: proves and builds CRATE, a static library. build/module has the archive as the kit writes it, CRATE.a, the module,
# CRATE.bc, and the compiler's words, CRATE.words; CRATE.sum says of which sources they are.
library_module() {
    mkdir -p build/module "crates/$1/out"
    tools/kit.py sum >"$room/sum"
    ! cmp -s "$room/sum" "build/module/$1.sum" || return 0
    tools/kit.py words "$1" >"$room/words" || return 1
    listening_toolchain
    rm -f "$room"/kept/*
    (
        cd "crates/$1"
        IFS='
'
        # shellcheck disable=SC2046
        told "$kit/bin/rattle" build $(cat "$room/words") --incremental out/incremental --backend llvm --toolchain "$room/toolchain" -o "$room/$1.a"
    ) || { echo "$1 is not proved" >&2; return 1; }
    for end in bc words; do cp "$room/kept/module.$end" "build/module/$1.$end"; done
    cp "$room/$1.a" "build/module/$1.a"
    cp "$room/sum" "build/module/$1.sum"
}

# compiled CRATE TRIPLE OBJECT WORD..: the module for another processor. The words for x86-64 in it are dropped, nothing else; what the kit's
# compiler is told of LLVM's passes, against faults of theirs, is told here too.
compiled() {
    name=$1 triple=$2 out=$3
    shift 3
    "$clang" --target="$triple" -x ir "build/module/$name.bc" -S -emit-llvm -O0 -Xclang -disable-llvm-passes -Wno-override-module \
        -o "$room/told.ll" 2>/dev/null
    sed -E 's/"target-cpu"="[^"]*"//g; s/"target-features"="[^"]*"//g; s/^target datalayout.*$//' "$room/told.ll" >"$room/$name.ll"
    # the kit puts all that is handed on together where 64 bits put it; with references of 32 bits LLVM does so for a reference and its length alone
    case $triple in *64*) ;; *)
        ! grep -oE '\{ [a-z0-9, ]*ptr[a-z0-9, ]* \}' "$room/$name.ll" | grep -qvxF '{ ptr, i64 }' ||
            { echo "$name: a reference is handed on beside something else than its length, which $triple would look for elsewhere" >&2; return 1; } ;;
    esac
    # shellcheck disable=SC2046
    "$clang" --target="$triple" -x ir -ffunction-sections -fdata-sections -Wno-override-module \
        $(awk 'was == "-mllvm" { print was, $0 } { was = $0 }' "build/module/$name.words") "$@" -c "$room/$name.ll" -o "$out"
}
