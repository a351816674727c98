#!/usr/bin/env bash
# date_pages.sh FOLDER SECONDS: puts the day of a time, in seconds since 1970, into the man pages of the programs in a folder.
set -euo pipefail
day=$(date --utc --date="@$2" +%F)
sed -i "1s/^\(\.TH [A-Z_]* 1\) \"\"/\1 \"$day\"/" "$1/mta_sim.1" "$1/mta_lab.1"
