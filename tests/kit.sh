# Sourced by the tests that run compiled code, from the project's root: the kit's tools, and how proved code is compiled, linked and started.
# The kit is for x86-64, and so is what it compiles. `made` is the test's folder under target.
kit=$(dirname "$(rt doc)")
tools=$kit/toolchain
mkdir -p "$made"
start=("$tools/lib/ld-linux-x86-64.so.2" --library-path "$tools/lib")
quietly() { # COMMAND..: what it says is shown if it fails
  if ! "$@" >"$made/log" 2>&1; then
    cat "$made/log"
    exit 1
  fi
}
link() { # PROGRAM.c OBJECT [FLAG..]: the C program, compiled with the flags too, with the proved code, at $made/PROGRAM
  local name
  name=$(basename "$1" .c)
  quietly "$tools/bin/clang" --target=x86_64-unknown-linux-gnu -O2 -fPIC -ffreestanding -nostdinc -Wall -Wextra -Werror "${@:3}" -c "$1" -o "$made/$name.o"
  linked "$made/$name" "$made/$name.o" "$2"
}
linked() { # PROGRAM OBJECT..: as the kit links a program
  quietly "$kit/bin/rattle-link" --target x86_64-unknown-linux-gnu --toolchain "$tools" -o "$@" "$kit/c/libos_c.a" "$kit/c/liblibc_c.a"
}
compiled() { # CRATE: proves it and compiles it, a static library to $made/CRATE.a and a program to $made/CRATE.o; the module, as rattle hands it to clang, is left at $made/CRATE.bc
  local name=$1 line root=src/main.rt kind=() to=$1.o words=() part links
  line=$(grep -E "^$name( staticlib)?:" crates.txt)
  if [[ ${line%%:*} == *staticlib ]]; then
    root=src/lib.rt kind=(--crate-type staticlib) to=$name.a
  fi
  # Where `rt ci` has just passed in this tree, .ci/run says so, and the libraries below are as it left them: nothing is proved twice.
  [ -n "${EISTULKO_CI_PASSED:-}" ] || (cd "crates/$name" && quietly rt check)
  for part in ${line#*:}; do words+=(--extern "$part=$PWD/crates/$part/out/rlib/$part.rlib"); done
  for part in "$PWD"/crates/*/out/rlib; do words+=(-L "dependency=$part"); done
  (
    # the kit's tools, with a clang that copies the module it is handed, and then is clang; not in the tree, where `rt ci` takes no links
    links=$(mktemp -d)
    trap 'rm -r "$links"' EXIT
    mkdir "$links/bin"
    for part in "$tools"/*; do [ "${part##*/}" = bin ] || ln -s "$part" "$links"; done
    for part in "$tools"/bin/*; do [ "${part##*/}" = clang ] || ln -s "$part" "$links/bin"; done
    printf '#!/bin/bash\nfor word; do case $word in *.bc) cp "$word" "%s" ;; esac; done\nexec -a "$0" "%s" "$@"\n' "$made/$name.bc" "$tools/bin/clang" >"$links/bin/clang"
    chmod +x "$links/bin/clang"
    cd "crates/$name"
    quietly "$kit/bin/rattle" build --crate-name "$name" $root --extern "std=$kit/rlibs/std.rlib" -L "dependency=$kit/rlibs" "${words[@]}" \
      --antt-project "$kit/rattle/logic/antt-project.json" --logic-built "$kit/logic_built" --backend llvm --incremental out/incremental --links "$name=" "${kind[@]}" \
      --jobs 2 --toolchain "$links" -o "$made/$to"
  )
}
module() { # CRATE: the same, and the module in words, at $made/CRATE.ll
  compiled "$1"
  quietly "$tools/bin/clang" --target=x86_64-unknown-linux-gnu -S -emit-llvm -Xclang -disable-llvm-passes -x ir "$made/$1.bc" -o "$made/$1.ll"
}
# What a C host links beside such a module, which returns a struct as x86-64 does.
if [ "$(uname -m)" = x86_64 ]; then elsewhere=(); else elsewhere=(library/elsewhere.c); fi
here() { # CRATE: its module for this machine, at $made/here.ll
  if [ "$(uname -m)" = x86_64 ]; then
    cp "$made/$1.ll" "$made/here.ll"
  else
    # Left out: which processor. A call that answers with a report has its place as first parameter there, and so gets a name of its own here.
    sed -E 's/"(target|tune)-cpu"="[^"]*"//g; /^target (triple|datalayout)/d; s/^(define .*ptr @eistulko_[a-z]+)\(/\1_at(/' "$made/$1.ll" >"$made/here.ll"
  fi
}
