"""A test that cannot be run here. .ci/run sets MAZHKURI_GATE; under it that is a failure."""
import os
import sys


def left_out(test, why):
    if os.environ.get("MAZHKURI_GATE"):
        sys.exit(f"FAILED: {test}: left out, {why}; under the gate every test is run")
    print(f"  left out: {test}: {why}", flush=True)
