#!/bin/sh
# Tokens per second of the token machine, by itself and with the value that it builds, on made texts of up to four million tokens,
# beside a plain pass over the same tokens. Prints one run; it is no test.
set -e
cd "$(dirname "$0")/../crates/benchmarks"
rt run -- grammar time | awk '
    / tokens, / { split($0, head, ": "); name = head[1]; split(head[2], words, " "); tokens = words[1] }
    /^plain pass/ {
        plain = $3; machine = $6; built = $9
        printf "%s: %d tokens, plain pass %d us, recognize %d us (%.0f million a second), build %d us (%.0f million a second)\n",
            name, tokens, plain, machine, tokens / machine, built, tokens / built
    }'
