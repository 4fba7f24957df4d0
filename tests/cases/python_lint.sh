# The Python package by mypy --strict, and all that is written in Python by pyflakes, where they are installed.
. "$top/tests/lib.sh"

package=$top/library/python
if has mypy; then
    expect 0 env MYPYPATH="$package" mypy --strict --enable-incomplete-feature=Unpack --cache-dir="$PWD/cache" -p pbcnf
else
    skip 'there is no mypy'
fi
flakes=
for name in pyflakes3 pyflakes; do
    [ -n "$flakes" ] || ! has $name || flakes=$name
done
if [ -n "$flakes" ]; then
    expect 0 $flakes "$package" "$examples" "$top"/{bench,docs/tools,library/examples,tests}
    says
else
    skip 'there is no pyflakes'
fi
