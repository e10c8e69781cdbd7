#!/usr/bin/env bash
# Formats the manual page with all of groff's warnings. It fails where there is one, and where a heading is missing.
# It is run by hand; without groff it is skipped with a line.
set -u
page=$(cd "$(dirname "$0")/.." && pwd)/docs/dumpcap.1
if ! command -v groff >/dev/null; then
    echo "skipped: groff is not installed"
    exit 0
fi
text=$(mktemp)
warnings=$(mktemp)
trap 'rm -f "$text" "$warnings"' EXIT
if ! groff -man -Tutf8 -P-cbou -ww "$page" >"$text" 2>"$warnings" || [ -s "$warnings" ]; then
    echo "FAILED: groff warns"
    cat "$warnings"
    exit 1
fi
for heading in NAME SYNOPSIS DESCRIPTION OPTIONS MODES 'EXIT STATUS' SIGNALS MESSAGES FILES EXAMPLES 'SEE ALSO'; do
    if ! grep -q "$heading" "$text"; then
        echo "FAILED: no heading $heading"
        exit 1
    fi
done
echo "ok: the manual page, $(wc -l <"$text") lines, no warning"
