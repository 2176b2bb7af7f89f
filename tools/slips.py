"""Shows that the compiler refuses a program that lets a slip fall, and one that spends a slip twice.

    python3 tools/slips.py

copies the repository to a temporary folder, adds two such programs, and has them checked. It prints what the
compiler says of each, and fails where it says something else. It is not part of the gate, since the gate builds
only what is proved. A first run takes as long as the crates below need to be checked.
"""

import os
import shutil
import subprocess
import sys
import tempfile

ROOT = os.path.dirname(os.path.dirname(os.path.abspath(__file__)))
NEEDS = "costs lists heap run dispatch"

PROGRAM = """//! A program that the compiler refuses.
#![tactic(auto)]

use costs::sum::Sum;
use dispatch::dispatcher::{Dispatcher, Drafted};
use lists::node::Node;
use lists::node_heap::NodeHeap;

pub fn draft_and_adopt(dispatcher: &mut Dispatcher) {
    let mut memory = [Node::default(); 64];
    let mut list = NodeHeap::new(&mut memory);
    if let Ok(Drafted { cost: _, taken: _, slip }) = dispatcher.draft(&Sum, &mut list, 1000) {
BODY    }
}
"""

# the crate, what it does with its slip, and what the compiler has to say of it
CASES = [
    (
        "slip_falls",
        "        if dispatcher.run().driven().is_some() {\n            let _ = dispatcher.adopt(slip);\n        }\n",
        "error[linear-value-let-go]: `slip` is held after one branch here and not another",
    ),
    (
        "slip_twice",
        "        let _ = dispatcher.adopt(slip);\n        let _ = dispatcher.adopt(slip);\n",
        "error[borrow-e0382]: use of moved value: `slip`",
    ),
]


def copy_repository(folder):
    """The files of the repository, as they stand, and the two programs beside them."""
    names = subprocess.run(["git", "ls-files"], cwd=ROOT, check=True, capture_output=True, text=True)
    for name in names.stdout.splitlines():
        os.makedirs(os.path.dirname(os.path.join(folder, name)), exist_ok=True)
        shutil.copy(os.path.join(ROOT, name), os.path.join(folder, name))
    with open(os.path.join(folder, "crates.txt"), "a") as crates:
        for crate, body, _ in CASES:
            crates.write(f"{crate}: {NEEDS}\n")
            source = os.path.join(folder, "crates", crate, "src")
            os.makedirs(source)
            with open(os.path.join(source, "lib.rt"), "w") as file:
                file.write(PROGRAM.replace("BODY", body))


def main():
    refused = True
    with tempfile.TemporaryDirectory() as folder:
        copy_repository(folder)
        for crate, _, words in CASES:
            place = os.path.join(folder, "crates", crate)
            check = subprocess.run(["rt", "check"], cwd=place, capture_output=True, text=True)
            said = [line for line in (check.stdout + check.stderr).splitlines() if ": error[" in line]
            print(f"{crate}:", *said, sep="\n  ")
            refused = refused and any(words in line for line in said)
    sys.exit(0 if refused else "not refused as it should be")


main()
