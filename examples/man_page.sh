#!/usr/bin/env bash
# A man page of what `bank help` prints, of the program and of each command:
#
#     examples/man_page.sh [PROGRAM] > bank.1
#     install -D -m 644 bank.1 /usr/local/share/man/man1/bank.1
set -eu
bank="${1:-$(dirname "$0")/../crates/bank/out/bank}"

# Text as it is laid out, with what roff would take as its own made plain.
as_it_is() {
    echo .nf
    sed 's/\\/\\e/g; s/^\([.'"'"']\)/\\\&\1/; s/-/\\-/g'
    echo .fi
}

about="$("$bank" 2>&1 | head -1)"
echo ".TH BANK 1 \"\" \"$("$bank" --version)\""
printf '.SH NAME\nbank \\- %s\n.SH DESCRIPTION\n' "$about"
"$bank" help | as_it_is
"$bank" help | sed -n '/^Commands:/,/^$/s/^  \([a-z]*\) .*/\1/p' | grep -vx help | while read -r command; do
    echo ".SH BANK $command" | tr '[:lower:]' '[:upper:]'
    "$bank" help "$command" | as_it_is
done
