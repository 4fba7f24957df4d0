# One number, that of VERSION, is in all files that have it: docs/tools/version finds those with another, and writes it.
. "$top/tests/lib.sh"

copy="$PWD/a copy"
version=$copy/docs/tools/version
written='README.md docs/pbcnf.1 docs/pbcnf-cheapest.1 docs/pbcnf-hints.1 docs/pbcnf-minimize.1 docs/pbcnf-solve.1'
written+=' library/pbcnf.h crates/pbcnf_c/src/lib.rt library/python/pbcnf/__init__.py library/rust/Cargo.toml library/rust/sys/Cargo.toml'
for file in VERSION CHANGELOG.md docs/tools/version $written; do
    mkdir -p "$copy/$(dirname "$file")"
    cp "$top/$file" "$copy/$file"
done
mkdir -p "$copy/release/a-system"
printf 'version %s\nkit none\n' "$(cat "$top/VERSION")" >"$copy/release/a-system/BUILT"
cp -R "$copy" before

# differ FILE..: just these have another number.
differ() {
    expect $(($# > 0)) "$version" --check
    cut -d' ' -f1 "$said" >differing
    holds differing "$@"
}

expect 2 "$version" --help
says
differ
for file in $written CHANGELOG.md release/a-system/BUILT; do
    sed -i "s/$(cat "$copy/VERSION")/0.0.7/" "$copy/$file"
    differ "$file"
    cp "before/$file" "$copy/$file"
done
sed -i '/PBCNF_VERSION/d' "$copy/library/pbcnf.h"
expect 1 "$version"
says "library/pbcnf.h has no number, and VERSION $(cat "$copy/VERSION")"
cp before/library/pbcnf.h "$copy/library"

# It writes the number and nothing else; the changes and what was built have theirs from elsewhere.
text "$copy/VERSION" 10.23.4
expect 1 "$version"
says $written "CHANGELOG.md has $(cat before/VERSION), and VERSION 10.23.4" \
    "release/a-system/BUILT has $(cat before/VERSION), and VERSION 10.23.4"
differ CHANGELOG.md release/a-system/BUILT
cp before/VERSION "$copy/VERSION"
expect 0 "$version"
says $written
for file in $written; do same "before/$file" "$copy/$file"; done
