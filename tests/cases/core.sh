# `examples/core`: its own tests, and what it does with words, names and streams.
. "$top/tests/lib.sh"
needs python3 cadical

export PYTHONPATH=$top/library/python PYTHONDONTWRITEBYTECODE=1 PBCNF=$pbcnf
core=$top/examples/core

run_tests "$top/library/python/tests/test_core.py"

mkdir room
export TMPDIR=$PWD/room
expect 20 "$core" "$examples/pigeons.opb"
sed -n '/^+/{=;p;}' "$examples/pigeons.opb" | sed 'N; s/\n/: /' >wanted
echo refuted >>wanted
cp wanted wanted.all
same wanted "$said"
expect 20 "$core" - --keep kept.opb <"$examples/pigeons.opb"
same wanted "$said"
sed '/^\*/d' kept.opb >statements
grep '^+' "$examples/pigeons.opb" >wanted
same wanted statements
expect 0 "$core" "$examples/choice.opb"
told_of 'there is no core'
pb decode "$examples/choice.opb" <(sed -n 's/^s/s/p; /^v/{s/x//g;s/$/ 0/p;}' "$said") >again
same again "$said"

text refused.opb 'x1 >= 1 ;'
expect 1 "$core" refused.opb
tells 'pbcnf: OPB 1:1: expected min:, a statement or the end' \
    "pbcnf-core: refused.opb: 'x1' is there: a term without its coefficient; pbcnf-tidy makes '+1 x1' of 'x1'"
expect 2 "$core"
expect 2 "$core" "$examples/pigeons.opb" --at-most=3
expect 0 "$core" --help
expect 4 "$core" nowhere.opb
expect 5 bash -c '"$0" "$1" >&-' "$core" "$examples/pigeons.opb"
expect 69 "$core" "$examples/pigeons.opb" --solver no-such-solver
tells 'pbcnf-core: no-such-solver is not on the path, or is none of CaDiCaL and CryptoMiniSat, which give reasons'
if has minisat; then
    expect 69 "$core" "$examples/pigeons.opb" --solver minisat
else
    skip 'there is no minisat'
fi
if has cryptominisat5; then
    expect 20 "$core" "$examples/pigeons.opb" --solver cryptominisat5
    tail -n 1 "$said" >ends
    holds ends refuted
else
    skip 'there is no cryptominisat5'
fi
# Neither is on this path.
mkdir tools
for tool in sh readlink; do ln -s "$(command -v $tool)" tools; done
ln -s "$(python3 -c 'import sys; print(sys.executable)')" tools/python3
expect 69 env PATH="$PWD/tools" "$core" "$examples/pigeons.opb"
tells 'pbcnf-core: neither cadical nor cryptominisat5 is on the path, which give reasons'

# A CaDiCaL that writes LRAT itself, as from 1.7 on: made of the one that is here, and of hints.
mkdir newer
text newer/cadical '#!/bin/sh' \
    'case " $* " in' \
    "*' --help '*) echo '  --lrat=bool  use LRAT proof format'; exit ;;" \
    "*' --lrat '*) ;;" \
    '*) exec cadical "$@" ;;' \
    'esac' \
    'cadical -q --no-binary "$4" "$5.drat"' \
    'status=$?' \
    "[ \$status -ne 20 ] || { '$examples/hints' \"\$4\" \"\$5.drat\" >\"\$5\" && touch '$PWD/wrote'; }" \
    'exit $status'
chmod 755 newer/cadical
expect 20 "$core" "$examples/pigeons.opb" --solver newer/cadical
same wanted.all "$said"
holds wrote
expect 0 "$core" "$examples/choice.opb" --solver newer/cadical

# A signal ends it and all that it has started, and nothing is left.
mkdir bin
text bin/cadical '#!/bin/sh' "[ \"\$1\" = --help ] && exit" "echo \$\$ >'$PWD/started'" 'exec sleep 1000'
chmod 755 bin/cadical
"$core" "$examples/pigeons.opb" --solver bin/cadical >"$said" 2>"$told" &
wait_until ended_or $! test -s started
kill -TERM $!
wait $!
status=$?
last='core, ended by SIGTERM'
if [ $status -eq 143 ]; then ended_well; else ended_ill "$last: wanted the status 143, got $status"; fi
says
if has_ended "$(cat started)"; then passed; else failed "$last: its solver still runs"; fi
expect 0 ls room
says
