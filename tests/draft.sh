#!/usr/bin/env bash
# draft.sh [PROGRAM..]: builds programs UNPROVED, as native files out/draft/PROGRAM, side by side; both where none is
# named. A draft shows in some minutes what a change does, where its proof takes an hour, and it promises nothing. It
# stops at an overflow and at an index out of bounds, as what rt try runs, and is slower than the proved program. Where
# drafts were built of the very same files before nothing is done.
# The kit's command rt try makes code of all sources, and leaves none. So it runs in a folder of links to the kit's own
# files, with another clang, which keeps that code and then ends the try. Here the code is compiled and linked.
set -euo pipefail
cd "$(dirname "$0")/.."
export PROGRAM=draft
names=$(tests/built.sh names "$@")
mapfile -t programs <<<"$names"

# mirror FOLDER: the kit, in which clang and the names that link to it are a script. The prover gives a try no more than
# hints, which take as long as the code itself, and is left out.
mirror() {
  local file
  mkdir -p "$1/kit/bin" "$1/kit/toolchain/bin" "$1/kept"
  for file in "$kit"/* "$kit"/bin/* "$kit"/toolchain/* "$kit"/toolchain/bin/*; do
    case ${file#"$kit"/} in
      bin | toolchain | toolchain/bin | toolchain/bin/clang | toolchain/bin/ld.lld | toolchain/bin/llvm-ar) ;;
      bin/rattle) ln -s "$(command -v true)" "$1/kit/bin/rattle" ;;
      # (these two look for the kit where they lie themselves)
      bin/rt | bin/rtlib.py) cp "$file" "$1/kit/bin" ;;
      *) ln -s "$file" "$1/kit/${file#"$kit"/}" ;;
    esac
  done
  keeper "$1" >"$1/kit/toolchain/bin/clang"
  chmod +x "$1/kit/toolchain/bin/clang"
  ln -s clang "$1/kit/toolchain/bin/ld.lld"
  ln -s clang "$1/kit/toolchain/bin/llvm-ar"
}

# keeper FOLDER: the script. The try compiles small helpers as they are, then the program, with a check of addresses.
keeper() {
  cat <<SCRIPT
#!/usr/bin/env bash
name=\$(basename "\$0")
[ ! -f module.bc ] || cp module.bc "$1/kept/\$\$.bc"
case " \$* " in
  *" module.bc "*" -fsanitize=address "*) mv "$1/kept/\$\$.bc" "$1/kept/program.bc" && exit 1 ;;
esac
exec -a "$kit/toolchain/bin/\$name" "$kit/toolchain/bin/clang" "\$@"
SCRIPT
}

# compile FOLDER: an object of each code that was kept, in the files kept/*.o
compile() {
  local code
  for code in "$1"/kept/*.bc; do
    "$kit/toolchain/bin/clang" --target=x86_64-unknown-linux-gnu --sysroot="$kit/toolchain" -march=x86-64 \
      -mllvm -no-trap-after-noreturn -mllvm -trap-unreachable -ffunction-sections -fdata-sections \
      --no-default-config -no-canonical-prefixes -fintegrated-cc1 -fno-crash-diagnostics -Werror -O1 -fPIE \
      -c -x ir "$code" -o "${code%.bc}.o"
  done
}

# link FOLDER PROGRAM: out/draft/PROGRAM of these objects
link() {
  local lib=$kit/toolchain/lib
  "$kit/toolchain/bin/ld.lld" -m elf_x86_64 -pie --dynamic-linker /lib64/ld-linux-x86-64.so.2 --as-needed -z relro \
    -z now -z noexecstack --eh-frame-hdr --gc-sections --no-dependent-libraries -o "$1/$2" \
    "$lib"/{Scrt1,crti,crtbeginS}.o "$1"/kept/*.o "$kit"/c/{libos_c,liblibc_c}.a \
    "$lib"/{libm.so.6,libc.so.6,libc_nonshared.a,ld-linux-x86-64.so.2,libgcc.a,libgcc_s.so.1,crtendS.o,crtn.o}
  install -D -m 755 "$1/$2" "out/draft/$2"
}

# draft PROGRAM: builds it, and says how long that took; what rt try complains of, if it comes to no program
draft() {
  local folder=$work/$1 stamp
  stamp=$(tests/built.sh stamp "$1")
  mirror "$folder"
  (cd "crates/$1" && "$folder/kit/bin/rt" try </dev/null >"$folder/said" 2>&1) || true
  if [ ! -f "$folder/kept/program.bc" ]; then
    echo "no draft of $1: rt try comes to no program"
    tail -n 40 "$folder/said"
    return 1
  fi
  compile "$folder"
  link "$folder" "$1"
  tests/built.sh keep "$1" "$stamp"
  echo "out/draft/$1: UNPROVED, $SECONDS s"
}

if tests/built.sh check "${programs[@]}"; then
  echo "== drafted of these files before, UNPROVED: ${programs[*]}"
  exit 0
fi
kit=$(dirname "$(rt doc)")
work=$(mktemp -d)
trap 'rm -rf "$work"' EXIT
echo "== drafting, which proves nothing, in some five minutes: ${programs[*]}"
jobs=()
for name in "${programs[@]}"; do
  tests/built.sh check "$name" || { draft "$name" & jobs+=($!); }
done
failed=0
for job in "${jobs[@]}"; do wait "$job" || failed=1; done
exit "$failed"
