#!/usr/bin/env bash
# package.sh: tries what make dist has left in out/dist. It unpacks the archive and the Debian package, each in an empty
# folder that gets the C library and nothing else, and runs the commands there on the examples. Changing the root takes
# root's rights, or those that a namespace of users gives; where neither is to be had, it says so and fails. What is
# packed has to be what is built here, of the files that are here.
set -u
cd "$(dirname "$0")/.." || exit 1
# (no draft is packed)
unset PROGRAM
tests/built.sh ask || exit 1
work=$(mktemp -d)
trap 'rm -rf "$work"' EXIT
passed=0
failed=0

# what runs a command in another root, or nothing where that can't be had
changes_root() {
  local way
  for way in "chroot" "unshare --user --map-root-user chroot"; do
    if $way / true 2>/dev/null; then echo "$way" && return; fi
  done
}

# unpack PACKAGE FOLDER
unpack() {
  mkdir "$2"
  case $1 in
    *.deb) dpkg-deb --extract "$1" "$2" ;;
    *) tar -xzf "$1" -C "$2" ;;
  esac
}

# inside WORDS..: the unpacked mta_sim, with the unpacked folder as its root
inside() {
  $way "$root" "$folder/mta_sim" "$@"
}

# is WHAT WANTED GOT: two files are the same, and not empty
is() {
  if [ -s "$2" ] && cmp -s "$2" "$3"; then
    passed=$((passed + 1))
  else
    failed=$((failed + 1))
    echo "$package, $1: wanted (<), got (>)"
    diff "$2" "$3" | head -n 10
  fi
}

# each example by each of its schedules comes to its trace, and is listed as a text that gives the same image
try_examples() {
  local trace name
  for trace in "$root$examples"/*.trace; do
    name=$(basename "$trace" .trace)
    inside asm "$examples/${name%%.*}.asm" /image
    inside run /image "$examples/$name.schedule" >"$work/got"
    is "run of $name" "$trace" "$work/got"
    inside list /image >"$root/listing"
    inside asm /listing /again
    is "list of $name" "$root/image" "$root/again"
  done
}

# the schedule that a run on threads hands out brings the machine to the same end
try_threads() {
  inside asm "$examples/lock.asm" /image
  inside threads /image 100 /found | sed -n '/^processor/,$p' >"$work/wanted"
  inside run /image /found | sed -n '/^processor/,$p' >"$work/got"
  is "threads on lock" "$work/wanted" "$work/got"
}

# the lost update of lock is the step before position 4
try_debugger() {
  inside asm "$examples/lock.asm" /image
  printf 'w 8\nc\nc\n' | inside debug /image "$examples/lock.lost_update.schedule" >"$work/got"
  printf 'point 0\nat 4 stop\nat 8 end\n' >"$work/wanted"
  is "debug on lock" "$work/wanted" "$work/got"
}

# the pages on which the reader is the scheduler are there, with as many states and steps as a search by a machine of the
# tests' own finds (counts.py)
try_play_pages() {
  local name
  for name in count lock producer_consumer; do
    grep -ohE '"counted":\{[^}]*\}' "$root${examples%examples}pages/$name.play.html" >"$work/got"
    python3 tests/spaces/counts.py "examples/$name.asm" >"$work/wanted"
    is "play page of $name" "$work/wanted" "$work/got"
  done
}

# LIT r1, 5 and ADD r2, r1, 3; of each program the version that the package's name has; that BUILD is of those that are
# packed, and of those that are built here
try_the_rest() {
  local name
  printf '8010000000000005\n0000000A208C0000\n' | inside words | grep '^r' >"$work/got"
  printf 'r01 0000000000000005\nr02 0000000000000008\n' >"$work/wanted"
  is "words" "$work/wanted" "$work/got"
  for name in $(tests/built.sh programs); do
    $way "$root" "$folder/$name" --version >"$work/got" 2>&1
    basename "$package" | sed -E "s/mta[-_]sim[-_]([0-9.]+)-.*/$name \\1/" >"$work/wanted"
    is "--version of $name" "$work/wanted" "$work/got"
    sha256sum <"$root$folder/$name" | sed "s/ .*//; s/^/$name    sha256 /" >"$work/wanted"
    find "$root" -name BUILD -exec grep "^$name .*sha256" {} + >"$work/got"
    is "$name in BUILD" "$work/wanted" "$work/got"
    sha256sum <"$(tests/built.sh path "$name")" | cut -d ' ' -f 1 >"$work/wanted"
    find "$root" -name BUILD -exec grep -A 1 "^$name .*sha256" {} + | sed -n 's/.*were taken out: sha256 //p' >"$work/got"
    is "$name in BUILD, with its symbols" "$work/wanted" "$work/got"
  done
}

# the man pages have the commit's day, and the package for Debian has editors' files where they look
try_places() {
  local name place from
  for name in $(tests/built.sh programs); do
    TZ=UTC git log -1 --date=format-local:%F --format=".TH ${name^^} 1 \"%cd\"" >"$work/wanted"
    find "$root" -name "$name.1*" -exec zcat -f {} + | sed -n '1s/\(1 "[^"]*"\).*/\1/p' >"$work/got"
    is "the date of the page of $name" "$work/wanted" "$work/got"
  done
  case $package in *.deb) ;; *) return ;; esac
  while read -r place from; do
    find "$root/usr/share/$place" -type f -printf '%P\n' | sort >"$work/got"
    (cd "editors/$from" && find . -type f -printf '%P\n' | sort) >"$work/wanted"
    is "the files in $place" "$work/wanted" "$work/got"
  done <<'PLACES'
vim/vimfiles vim
nvim/site vim
emacs/site-lisp emacs
org.kde.syntax-highlighting/syntax kate
PLACES
}

# try_package PACKAGE: unpacks it beside the C library that its programs are linked to
try_package() {
  package=$1
  root=$work/$(basename "$package").root
  unpack "$package" "$root" || exit 1
  folder=$(cd "$root" && dirname "$(find . -path '*/bin/mta_sim' -type f | cut -c 2-)")
  examples=$(cd "$root" && find . -name examples -type d | cut -c 2-)
  ldd "$root$folder"/* | grep -v ':$' | grep -oE '/[^ ]+' | sort -u | xargs cp --dereference --parents -t "$root"
  try_examples
  try_threads
  try_debugger
  try_play_pages
  try_the_rest
  try_places
}

way=$(changes_root)
if [ -z "$way" ]; then
  echo "the packages can't be tried here: changing the root needs root's rights, or a namespace of users"
  exit 1
fi
for package in out/dist/*.tar.gz out/dist/*.deb; do
  if [ -f "$package" ]; then try_package "$package"; fi
done
if command -v lintian >/dev/null && ! lintian --allow-root --fail-on error out/dist/*.deb; then
  failed=$((failed + 1))
fi
echo "$passed passed, $failed failed"
[ "$failed" -eq 0 ] && [ "$passed" -gt 0 ]
