#!/bin/sh
# Makes a block stream with protoc and sha512sum: a first block of one batch that sets the IntegerKey name `a` to 5.
# Usage: demo/by_protoc.sh ROOT > FILE, with the 64 hex digits of the state root that the block claims.
set -eu
: "${1?usage: demo/by_protoc.sh ROOT > FILE}"
cd "$(dirname "$0")/../proto"
made=$(mktemp -d)
trap 'rm -r "$made"' EXIT

# A key of 66 hex digits; the development verifier takes any.
key=02$(printf '%064d' 1)
no_block=0000000000000000

# Standard input as the escapes of protoc's text form.
escaped() { od -An -v -tx1 | tr -d '\n' | sed 's/ /\\x/g'; }

# Text form in, message of this type out.
message() { protoc --encode="$1" blocks.proto; }

# The development signature: SHA-512 of the key's text followed by the bytes of a file.
mark() { { printf %s "$key"; cat "$1"; } | sha512sum | cut -d ' ' -f 1; }

# {"Verb": "set", "Name": "a", "Value": 5}, kept under the last 64 digits of the name's SHA-512.
printf '\243\144Verb\143set\144Name\141a\145Value\005' > "$made/payload"
address=1cf126$(printf a | sha512sum | cut -c 65-128)

message TransactionHeader > "$made/transaction" <<END
batcher_public_key: "$key"
family_name: "intkey"
family_version: "1.0"
inputs: "$address"
outputs: "$address"
payload_sha512: "$(sha512sum < "$made/payload" | cut -d ' ' -f 1)"
signer_public_key: "$key"
END

message BatchHeader > "$made/batch" <<END
signer_public_key: "$key"
transaction_ids: "$(mark "$made/transaction")"
END

message BlockHeader > "$made/block" <<END
previous_block_id: "$no_block"
signer_public_key: "$key"
batch_ids: "$(mark "$made/batch")"
state_root_hash: "$1"
END

message Block > "$made/whole" <<END
header: "$(escaped < "$made/block")"
header_signature: "$(mark "$made/block")"
batches {
  header: "$(escaped < "$made/batch")"
  header_signature: "$(mark "$made/batch")"
  transactions {
    header: "$(escaped < "$made/transaction")"
    header_signature: "$(mark "$made/transaction")"
    payload: "$(escaped < "$made/payload")"
  }
}
END

# A frame: four bytes of big-endian length, and the block.
length=$(wc -c < "$made/whole")
for shift in 24 16 8 0; do
    printf "\\$(printf %03o $((length >> shift & 255)))"
done
cat "$made/whole"
