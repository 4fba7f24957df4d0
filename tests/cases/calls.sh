# Each opening, reading and writing refused in turn: a text that cannot be opened or read is status 4, a file that cannot be made or
# written, and words that cannot be said, are 5, and what stands is a first part of what was due. Calls that were interrupted are
# tried again.
. "$top/tests/lib.sh"
. "$top/tests/refusing.sh"

for error in EINTR EIO EACCES; do
    if [ $error = EINTR ]; then wanted=(0 0 0 0); else wanted=('4 5' 4 5 '4 4 4 4'); fi
    each openat $error "${wanted[0]}" encode knapsack.opb n.cnf n.proof
    each read $error "${wanted[1]}" encode knapsack.opb n.cnf n.proof
    each write $error "${wanted[2]}" encode knapsack.opb n.cnf n.proof
    each openat $error "${wanted[3]}" refute pigeons.opb pigeons.cnf pigeons.proof pigeons.lrat
    each read $error "${wanted[1]}" refute pigeons.opb pigeons.cnf pigeons.proof pigeons.lrat
    each write $error "${wanted[2]}" refute pigeons.opb pigeons.cnf pigeons.proof pigeons.lrat
    each read $error "${wanted[1]}" decode knapsack.opb knapsack.model
    each write $error "${wanted[2]}" wcnf knapsack.opb n.wcnf
done
