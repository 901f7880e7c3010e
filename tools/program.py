"""The program that was made from these sources (scripts/program), or the one that the environment names in PROGRAM.

As a command it prints the versions of scripts that checks use, "12" or "123"."""

import functools
import json
import os
import pathlib
import subprocess
import sys

ROOT = pathlib.Path(__file__).resolve().parent.parent
PROGRAM = pathlib.Path(os.environ.get("PROGRAM") or subprocess.check_output([ROOT / "scripts/program"], text=True).strip())


def reported(script, turn):
    """Its report on a script, or with which status and line it refused that."""
    run = subprocess.run([PROGRAM, "run", "--turn", str(turn)], input=json.dumps(script).encode(),
                         capture_output=True, check=False)
    return run.stdout.decode() if run.returncode == 0 else f"status {run.returncode}: {run.stderr.decode()}"


@functools.cache
def reads_version_3():
    """Whether the program reads scripts of version 3. One that doesn't answers each of them with `J9 Version`."""
    run = subprocess.run([PROGRAM, "run"], input=b'{"version":3}', capture_output=True, check=False)
    return run.stderr != b"bxgate: J9 Version\n"


def versions():
    """The versions of scripts that checks use, as "12" or "123": what VERSIONS in the environment says, or else those
    that the program reads."""
    return os.environ.get("VERSIONS") or ("123" if reads_version_3() else "12")


def has_version_3(what):
    """Whether checks use scripts of version 3. Where they don't, says on standard error what is left out."""
    if "3" in versions():
        return True
    reason = "VERSIONS is 12" if "VERSIONS" in os.environ else "the program answers J9 Version to version 3"
    print(f"left out, since {reason}: {what}", file=sys.stderr)
    return False


if __name__ == "__main__":
    print(versions())
