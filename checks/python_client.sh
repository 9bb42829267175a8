#!/usr/bin/env bash
# Runs the tests of the Python client, clients/python, over the program that the gate or ./stasis has built: values of every byte, 64 transactions
# at a time, a holder that is named, a program that ends in the middle, and 20,000 lines that are sent before a reply is read.
#
# Where python3 isn't there, it says so and is skipped. Else it ends with 0 only where all tests pass.
set -u
top="$(cd "$(dirname "$(readlink -f "${BASH_SOURCE[0]}")")/.." && pwd)"
if ! command -v python3 >/dev/null; then
    echo "python client: skipped: python3 isn't there"
    exit 0
fi
if python3 "$top/clients/python/test_stasis.py" "$top/crates/sg_main/out/sg_main"; then
    echo "python client: ok"
else
    echo "python client: FAILED"
    exit 1
fi
