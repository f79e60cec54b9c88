"""Where the repository, its examples and the folder of the gate stand."""

import os

TOP = os.path.dirname(os.path.dirname(os.path.abspath(__file__)))
EXAMPLES = f'{TOP}/examples'
