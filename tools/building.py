"""building.py PART..: builds the parts of tools/build.sh in turn; interrupted, it leaves no process behind. Ends with the status of
the first part that fails."""
import os
import sys

import group
import proving


def oracle():
    return group.run([os.path.join(proving.ROOT, "oracle", "build.sh"), "--changed"], group.pass_on)


def main(parts):
    os.chdir(proving.ROOT)
    for part in parts:
        status = oracle() if part == "oracle" else proving.build(part)
        if status:
            sys.exit(status if status > 0 else 128 - status)


if __name__ == "__main__":
    main(sys.argv[1:])
