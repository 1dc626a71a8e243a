#!/usr/bin/env bash
# Lists the runs of six lines that src/ repeats, by a lister of duplicates on the PATH that reads Rust files.
cd "$(dirname "$0")/.." || exit 1
copy=$(mktemp -d)
trap 'rm -rf "$copy"' EXIT
git ls-files 'crates/*/src/*.rt' | while read -r file; do
    mkdir -p "$copy/$(dirname "$file")"
    cp "$file" "$copy/${file%.rt}.rs"
done
cd "$copy" && duplicates --min-lines 6 --most 60
