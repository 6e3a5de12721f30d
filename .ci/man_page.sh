#!/usr/bin/env bash
# Checks that the manual page has each command, option and flag of the command line's table. It prints only what is missing.
set -eu
cd "$(dirname "$0")/.."
missing=0
for word in $(grep -oh 'codes "[^"]*"' crates/command_line/specs/Verbs.antt | sed 's/codes "//; s/"//' | sort -u); do
    if ! grep -qF -- "${word//-/\\-}" docs/pme.1; then
        echo "docs/pme.1 lacks $word"
        missing=1
    fi
done
exit $missing
