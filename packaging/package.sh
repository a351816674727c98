#!/usr/bin/env bash
# package.sh: packs the built programs as out/dist/mta_sim-VERSION-x86_64-linux.tar.gz and, where dpkg-deb is there, as a
# Debian package. What stands beside the programs is taken from the commit, and has its time: so the same commit, programs
# and verdict give the same bytes.
# shellcheck disable=SC2046,SC2086 # names of libraries and programs have no blanks
set -euo pipefail
cd "$(dirname "$0")/.."
# (no draft is packed)
unset PROGRAM
tests/built.sh ask
programs=$(tests/built.sh programs)
kit=$(dirname "$(rt doc)")
version=$(sed -n 's/^pub const VERSION: &str = "\(.*\)";$/\1/p' crates/command_line/src/lib.rt)
package=mta_sim-$version-x86_64-linux
SOURCE_DATE_EPOCH=$(git log -1 --format=%ct)
export SOURCE_DATE_EPOCH
umask 022
room=$(mktemp -d)
trap 'rm -rf "$room"' EXIT

# where a program lies that was built
built() { tests/built.sh path "$1"; }

# the libraries of the kit that the programs' crates use; in crates.txt a crate stands behind those that it uses
used_libraries() {
  tac crates.txt | awk -F: '
    BEGIN { needed["mta_sim"]; needed["mta_lab"] }
    /^[a-z]/ { ours[$1] }
    /^[a-z]/ && $1 in needed { count = split($2, below, " "); for (i = 1; i <= count; i++) needed[below[i]] }
    END { for (library in needed) if (!(library in ours)) print library }' | sort
}

# these libraries of the kit and those that they use, as their built forms say
with_those_below() {
  local library
  for library in "$@"; do
    echo "$library"
    with_those_below $(grep -a '^dep ' "$kit/rlibs/$library.rlib/format" | cut -d ' ' -f 2)
  done
}

# what can be said of copyright, with the notices of the kit's libraries that are ports
copyright() {
  local library notice
  cat packaging/copyright
  for library in $(with_those_below $(used_libraries) | sort -u); do
    for notice in "$kit/rattle/$library/LICENSE-MIT" "$kit/rattle/$library/LICENSE"; do
      if [ -f "$notice" ]; then printf '\n== %s\n\n' "$library" && cat "$notice"; fi
    done
  done
}

# the same for Debian, whose systems have the text of the Apache License
debian_copyright() {
  sed '/^ *Apache License$/,/^END OF TERMS AND CONDITIONS$/c\
The Apache License, version 2.0: /usr/share/common-licenses/Apache-2.0.' "$1"
}

# leaves the files below a folder with the modes of any umask, and the commit's time
settle() {
  chmod -R u=rwX,go=rX "$1"
  find "$1" -exec touch --no-dereference --date="@$SOURCE_DATE_EPOCH" {} +
}

# strip_symbols FROM TO: a program without its symbols; what is loaded has to be the same
strip_symbols() {
  strip --strip-unneeded -o "$2" "$1"
  chmod 755 "$2"
  objcopy -O binary "$1" "$room/loaded"
  objcopy -O binary "$2" "$room/packed"
  cmp "$room/loaded" "$room/packed"
}

# pages FOLDER: a page of each example there by each of its schedules, in its folder pages
pages() {
  local schedule name
  mkdir "$1/pages"
  for schedule in "$1"/examples/*.schedule; do
    name=$(basename "$schedule" .schedule)
    "$(built mta_lab)" page "$1/examples/${name%%.*}.asm" "$schedule" --out "$1/pages/$name.html" >/dev/null
  done
}

# gallery FOLDER: beside these the gallery of the examples and exercises there, with a page of each on which the reader is the
# scheduler
gallery() {
  "$(built mta_lab)" gallery "$1/pages" --exercises "$1/exercises" --examples "$1/examples" >/dev/null
}

# the tree of the archive: the programs in bin/, and the rest as it lies in the repository
lay_out_archive() {
  local name
  mkdir -p "$1/bin"
  git archive HEAD README.md CONTRIBUTING.md CHANGELOG.md docs examples exercises editors share ':(exclude)share/make' ':(exclude)editors/make' | tar -x -C "$1"
  python3 tests/trust "$1/docs/TRUST.md"
  packaging/date_pages.sh "$1/share/man/man1" "$SOURCE_DATE_EPOCH"
  for name in $programs; do
    strip_symbols "$(built "$name")" "$1/bin/$name"
  done
  pages "$1"
  gallery "$1"
  packaging/build_facts.sh "$version" "$1/bin" $programs >"$1/BUILD"
  copyright >"$1/COPYRIGHT"
  settle "$1"
}

# the tree of the Debian package, made of that of the archive
lay_out_debian() {
  local from=$1 to=$2 share=$2/usr/share
  local doc=$share/doc/mta-sim name
  mkdir -p "$share/man/man1" "$share/mta-sim" "$doc" "$to/DEBIAN"
  cp -r "$from/share/schema" "$share/mta-sim"
  for name in $programs; do
    install -D -m 755 "$from/bin/$name" "$to/usr/bin/$name"
    install -D -m 644 "$from/share/completions/$name.bash" "$share/bash-completion/completions/$name"
    install -D -m 644 "$from/share/completions/_$name" "$share/zsh/vendor-completions/_$name"
    install -D -m 644 "$from/share/completions/$name.fish" "$share/fish/vendor_completions.d/$name.fish"
    gzip -9nc "$from/share/man/man1/$name.1" >"$share/man/man1/$name.1.gz"
  done
  # the words of mta_lab debug, which rlwrap completes
  install -D -m 644 "$from/share/completions/mta_lab.rlwrap" "$share/rlwrap/completions/mta_lab"
  # where Vim, Neovim, Emacs and Kate look
  mkdir -p "$share/vim/vimfiles" "$share/nvim/site" "$share/emacs/site-lisp"
  cp -r "$from/editors/vim/." "$share/vim/vimfiles"
  cp -r "$from/editors/vim/." "$share/nvim/site"
  cp "$from/editors/emacs/mta-mode.el" "$share/emacs/site-lisp"
  install -D -m 644 "$from/editors/kate/mta.xml" "$share/org.kde.syntax-highlighting/syntax/mta.xml"
  # Debian has the changes packed, under a name of its own
  sed 's/CHANGELOG\.md/changelog.gz/' "$from/README.md" >"$doc/README.md"
  cp -r "$from/CONTRIBUTING.md" "$from/docs" "$from/examples" "$from/exercises" "$from/pages" "$from/editors" "$from/BUILD" "$doc"
  debian_copyright "$from/COPYRIGHT" >"$doc/copyright"
  gzip -9nc "$from/CHANGELOG.md" >"$doc/changelog.gz"
  debian_changelog | gzip -9nc >"$doc/changelog.Debian.gz"
  control "$to" >"$to/DEBIAN/control"
  (cd "$to" && find usr -type f | LC_ALL=C sort | xargs -d '\n' md5sum) >"$to/DEBIAN/md5sums"
  settle "$to"
}

maintainer() {
  git log -1 --format='%an <%ae>'
}

debian_changelog() {
  printf 'mta-sim (%s-1) unstable; urgency=medium\n\n' "$version"
  printf '  * Version %s: see changelog.gz and BUILD.\n\n' "$version"
  printf ' -- %s  %s\n' "$(maintainer)" "$(date --utc --rfc-email --date="@$SOURCE_DATE_EPOCH")"
}

control() {
  local glibc size
  glibc=$(packaging/needs.sh glibc "$1"/usr/bin/*)
  size=$(find "$1/usr" -type f -printf '%s\n' | awk '{ bytes += $1 } END { print int((bytes + 1023) / 1024) }')
  sed -e "s/@VERSION@/$version/" -e "s/@MAINTAINER@/$(maintainer)/" -e "s/@SIZE@/$size/" -e "s/@GLIBC@/$glibc/" \
    packaging/control
}

mkdir -p out/dist
rm -f out/dist/mta[-_]sim[-_]*
lay_out_archive "$room/$package"
tar --sort=name --format=gnu --owner=0 --group=0 --numeric-owner -C "$room" -c "$package" | gzip -9n \
  >"out/dist/$package.tar.gz"
echo "out/dist/$package.tar.gz"
if command -v dpkg-deb >/dev/null; then
  lay_out_debian "$room/$package" "$room/debian"
  dpkg-deb --root-owner-group -Zgzip --build "$room/debian" "out/dist/mta-sim_$version-1_amd64.deb" >"$room/said"
  echo "out/dist/mta-sim_$version-1_amd64.deb"
else
  echo "no dpkg-deb here, so no Debian package"
fi
cp "$room/$package/COPYRIGHT" "$room/$package/editors/vscode/COPYRIGHT.txt"
packaging/vsix.py "$room/$package/editors/vscode" "out/dist/mta-sim-$version.vsix"
echo "out/dist/mta-sim-$version.vsix"
cat "$room/$package/BUILD"
