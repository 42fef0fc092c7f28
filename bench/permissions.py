"""Measures what permissions cost: a block over a state with roles and policies beside one over a state without them.

Run by hand, never by the gate, after `rt run` has built the program: python3 -B bench/permissions.py PROGRAM [TURNS]

Both streams have a first block that sets the keys that may change settings, and those that may set policies. With
permissions it sets five policies of ten entries, of which the last permits the one signer, and the four roles that are
asked; the fifth policy is `default`. Behind it stands a block of 20,000 IntegerKey transactions, ten in a batch, as in
bench/onchain.py, which has the turns, the times and what is printed.
"""

import sys

import onchain
import usage
from batches import ALLOWED, KEY
from families import KEYS

# Each role that is asked, and its policy.
ROLES = {
    "transactor.transaction_signer.intkey": "counters",
    "transactor.transaction_signer": "transactions",
    "transactor.batch_signer": "batches",
    "transactor": "all",
}
ENTRIES = 10


def policy(name):
    """Words of a policy that denies other keys, and permits the signer by its last entry."""
    others = [f"deny 03{at:064}" for at in range(1, ENTRIES)]
    return " ".join([f"identity policy {name}", *others, f"permit {KEY}"])


def main():
    usage.words(__doc__, 1, 2)
    program, turns = sys.argv[1], int(sys.argv[2]) if len(sys.argv) > 2 else 7
    keys = [f"settings propose {key} {KEY}" for key in (KEYS, ALLOWED)]
    policies = [policy(name) for name in (*ROLES.values(), "default")]
    roles = [f"identity role {name} {its_policy}" for name, its_policy in ROLES.items()]
    firsts = {"permissions": "; ".join(keys + policies + roles), "none": "; ".join(keys)}
    onchain.compare(program, turns, firsts, [onchain.transaction(at, False) for at in range(onchain.TRANSACTIONS)])


if __name__ == "__main__":
    main()
