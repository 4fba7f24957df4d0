# Files and folders that a user may not read or write.
. "$top/tests/lib.sh"

leave_root
cp "$examples/choice.opb" a.opb
fine encode a.opb whole.cnf
mkdir open closed
chmod 777 open
cp a.opb closed/a.opb
printf 'old\n' | tee closed/o.cnf open/fixed.cnf >old
chmod 666 closed/o.cnf
chmod 444 open/fixed.cnf
chmod 555 closed
printf '+1 x1 >= 1 ;\n' >secret.opb
chmod 000 secret.opb

# refuses STATUS LINE WORD..: as `fault`, as that user.
refuses() {
    expect "$1" as_user "${@:3}"
    says
    tells "pbcnf: $2"
}

refuses 5 'write fault' encode a.opb closed/new.cnf
absent closed/new.cnf
refuses 5 'write fault' bench 1 0 closed/new.cnf
absent closed/new.cnf
refuses 5 'write fault' encode a.opb open/fixed.cnf
refuses 5 'write fault' wcnf a.opb open/fixed.cnf
same old open/fixed.cnf
refuses 4 'read fault' encode secret.opb open/new.cnf
absent open/new.cnf
refuses 4 'read fault' decode a.opb secret.opb

# A file that may be written in such a folder is; and one may read there.
expect 0 as_user encode closed/a.opb closed/o.cnf
tells
same whole.cnf closed/o.cnf
expect 0 as_user encode a.opb open/new.cnf open/new.proof
tells
same whole.cnf open/new.cnf

# A folder that may not be entered.
mkdir shut
cp a.opb shut/a.opb
chmod 600 shut
if [ "$(id -u)" -eq 0 ]; then chown 65534 shut; fi
refuses 4 'read fault' encode shut/a.opb open/other.cnf
refuses 5 'write fault' encode a.opb shut/o.cnf
absent open/other.cnf
