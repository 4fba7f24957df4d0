# At a terminal: one end of input is enough, and a CNF may be made by the name of standard output.
. "$top/tests/lib.sh"

needs python3
cat >terminal.py <<'END_OF_PYTHON'
"""Runs a command at a terminal of its own that gives a text and one end of input, and prints what comes; at most two minutes."""
import os
import pty
import select
import subprocess
import sys
import termios
import time

ours, theirs = pty.openpty()
settings = termios.tcgetattr(theirs)
settings[1] &= ~termios.OPOST
settings[3] &= ~termios.ECHO
termios.tcsetattr(theirs, termios.TCSANOW, settings)
run = subprocess.Popen(sys.argv[2:], stdin=theirs, stdout=theirs, stderr=theirs)
os.close(theirs)
os.write(ours, sys.argv[1].encode() + b"\n\x04")
ends = time.monotonic() + 120
while select.select([ours], [], [], max(0, ends - time.monotonic()))[0]:
    try:
        piece = os.read(ours, 4096)
    except OSError:
        break
    if not piece:
        break
    sys.stdout.write(piece.decode())
else:
    run.kill()
status = run.wait()
sys.exit(status if status >= 0 else 128 - status)
END_OF_PYTHON
python3 terminal.py '' cat >"$said" 2>"$told"
if [ $? -ne 0 ]; then
    skip "python3 has no terminals here: $(bytes_of "$told")"
    exit 0
fi

at_terminal() {
    python3 terminal.py "$1" "$pbcnf" "${@:2}"
}

expect 0 at_terminal '+1 rain >= 1 ;' map /dev/stdin
says '1 rain'
expect 0 at_terminal '+1 x1 +1 x2 >= 1 ;' encode /dev/stdin o.cnf
clauses_alone 2 1
holds o.cnf 'p cnf 2 1' '1 2 0'
text a.opb '+1 x1 +1 x2 >= 1 ;'
expect 0 at_terminal '' encode a.opb /dev/stdout
says 'p cnf 2 1' '1 2 0' 'variables 2 original 2 fresh 0 clauses 1' \
    'nothing 0 empty 0 clause 1 pairwise 0 ladder 0 product 0 counter 0 totalizer 0 diagram 0 tree 0 adder 0'
expect 1 at_terminal '+1 x1 >= 1' map /dev/stdin
says 'pbcnf: OPB 2:1: expected ;'
