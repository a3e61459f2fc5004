#!/bin/sh
# oracle/layout.sh [TO]: lays the original out below TO (target/oracle), where the shims take it from:
#   crates/  its files, byte for byte, and no others
#   cut/     pieces of controller.rs as they stand there: the counter's function and its first value, and the expression
#            that settles the requests, which stands there twice; and of reassembler.rs: which record has a chunk's number
#   probed/  reassembler.rs as it stands there, with a module behind it that shows its private fields
# The original is looked for at MIDICI_SRC, or else at ../shared/docs/src, as seen from the repository's root.
set -eu
cd "$(dirname "$0")/.."
src=${MIDICI_SRC:-../shared/docs/src}
to=${1:-target/oracle}
mkdir -p "$to/crates" "$to/cut" "$to/probed"
trap 'rm -f "$to/new"' EXIT
trap 'exit 130' INT
trap 'exit 143' TERM
trap 'exit 129' HUP

# listed DIR LIST: writes the list of DIR's files.
listed() {
    (cd "$1" && find crates -name '*.rs') >"$to/new"
    sort "$to/new" >"$2"
}

# What is there already and alike is left, so that cargo does not build anew.
keep() {
    cmp -s "$1" "$2" || cp "$1" "$2"
}

listed "$src" "$to/files"
if [ ! -s "$to/files" ]; then
    echo "layout: no files below $src/crates" >&2
    exit 1
fi
while read -r file; do
    mkdir -p "$to/$(dirname "$file")"
    keep "$src/$file" "$to/$file"
    cmp "$src/$file" "$to/$file"
done <"$to/files"
listed "$to" "$to/found"
while read -r file; do
    [ -f "$src/$file" ] || rm "$to/$file"
done <"$to/found"

# cut NAME FILE PATTERN PROGRAM: what the awk program prints of a file of midici-pe, in which one line must fit the pattern.
cut() {
    from=$to/crates/midici-pe/src/$2
    if [ "$(grep -c "$3" "$from")" != 1 ]; then
        echo "layout: not one line of $2 fits $3" >&2
        exit 1
    fi
    awk "$4" "$from" >"$to/new"
    keep "$to/new" "$to/cut/$1.rs"
}

cut negotiated_inquiry controller.rs '^        let negotiated = inq\..*;$' \
    'sub(/^        let negotiated = inq/, "inq") { sub(/;$/, ""); print }'
cut negotiated_reply controller.rs '^        let negotiated = rep\..*;$' \
    'sub(/^        let negotiated = rep/, "rep") { sub(/;$/, ""); print }'
cut first_request_id controller.rs '^            next_out_request_id: .*,$' \
    'sub(/^            next_out_request_id: /, "") { sub(/,$/, ""); print }'
cut alloc_out_request_id controller.rs '^    fn alloc_out_request_id(&mut self) -> u8 {$' \
    'BEGIN { print "impl PeController {" } /^    fn alloc_out_request_id\(/ { on = 1 } on { print } on && /^    }$/ { print "}"; exit }'
cut is_held reassembler.rs '^        if slot\.index\.iter()\.any(.*) {$' \
    'sub(/^        if slot\.index\.iter\(\)\.any\(/, "") { sub(/\) \{$/, ""); print }'

cat "$to/crates/midici-pe/src/reassembler.rs" oracle/shim/midici-pe/probe.rs >"$to/new"
keep "$to/new" "$to/probed/reassembler.rs"
