#!/bin/sh
# Measures the splitter and the lexer on a script of 64 MiB of INSERTs: bytes, statements, tokens, milliseconds.
set -eu
top=$(cd "$(dirname "$0")/.." && pwd)
script=$(mktemp)
trap 'rm -f "$script"' EXIT
awk 'BEGIN { while (size < 67108864) { n++; line = "INSERT INTO orders (id, name, note) VALUES (" n ", '\''customer " n "'\'', '\''it'\'''\''s a note; really'\''), (" n ", NULL, x'\''00ff'\''); -- row " n "\n"; printf "%s", line; size += length(line) } }' >"$script"
cd "$top/crates/mr_lex_bench"
rt run -- "$script"
