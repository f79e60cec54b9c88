"""A server in Python that stands for `mpdbg serve` (served/stand_in.py).

    python3 compare/runs/stand_in.py serve FILE --port P --clients N --mode M

Two more words may stand before `serve`: the name of a fault (--fault), and how many entries the history may have (--history).
"""

import os
import sys

sys.path.insert(0, os.path.dirname(os.path.dirname(os.path.abspath(__file__))))

from served import stand_in, stand_in_server_faults

if __name__ == '__main__':
    if '--fault' in sys.argv:
        stand_in_server_faults.plant(sys.argv[sys.argv.index('--fault') + 1])
    sys.exit(stand_in.run(stand_in.arguments()))
