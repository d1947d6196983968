"""What the tests of the scripts share.

files      devicetrees and kernels
guests     a guest of each hypervisor: its files and words, and programs that stand in for hypervisors
folders    a folder with files, in which a script is started
tries      what came of tries, as lines and as the last line of a test
manifests  manifests, of tables and of launches as texts
commands   the commands of a document
processes  which processes run
in_c       programs in C that are linked with the library
rows       the files of cases/ and rows/, as runs of the program
"""
import os
import sys

TOP = os.path.dirname(os.path.dirname(os.path.dirname(os.path.abspath(__file__))))
# The folder of the scripts' modules.
SCRIPTS = os.path.join(TOP, "scripts")
MIB = 1 << 20
# How many times as long as on a processor of its own a run may take: more than once where an emulator runs the program (tests/processors.py).
PATIENCE = int(os.environ.get("RIM_TEST_PATIENCE", "1"))
# How long a run may take.
SECONDS = 60 * PATIENCE

sys.path.insert(0, SCRIPTS)
sys.path.insert(0, os.path.join(TOP, "tools", "oracles"))
