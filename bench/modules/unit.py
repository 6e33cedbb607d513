"""What the unit of contrib/ sets."""
import os
import re

UNIT = os.path.join(os.path.dirname(os.path.abspath(__file__)), "..", "..", "contrib", "newsd.service")


def tunables():
    """What glibc's allocator is told."""
    with open(UNIT) as unit:
        return re.search(r"^Environment=GLIBC_TUNABLES=(\S+)$", unit.read(), re.MULTILINE).group(1)
