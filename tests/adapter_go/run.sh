#!/usr/bin/env bash
# run.sh: tries mta_lab dap by a client on Debian's golang-github-google-go-dap-dev, a library that others wrote. Says what
# is missing. GOROOT and GO_DAP may say where Go and the library's sources are. PROGRAM=draft in the
# environment means the draft.
set -u
cd "$(dirname "$0")/../.." || exit 1
lab=$PWD/$(tests/built.sh path mta_lab) || exit 1
go=${GOROOT:+$GOROOT/bin/}go
sources=${GO_DAP:-/usr/share/gocode/src}
command -v "$go" >/dev/null || { echo "no Go here: Debian's is golang-go" && exit 1; }
[ -d "$sources/github.com/google/go-dap" ] || { echo "no go-dap here: Debian's is golang-github-google-go-dap-dev" && exit 1; }
tests/built.sh ask mta_lab || exit 1
room=$(mktemp -d)
trap 'rm -rf "$room"' EXIT
mkdir -p "$room/src/client"
cp tests/adapter_go/main.go "$room/src/client"
ln -s "$sources/github.com" "$room/src/github.com"
export GOPATH=$room GO111MODULE=off GOCACHE=$room/cache GOFLAGS=
(cd "$room/src/client" && "$go" build -o "$room/client") || exit 1
"$room/client" "$lab" "$PWD/examples"
