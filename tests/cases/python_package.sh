# `pip install ./library/python`, as who has neither rt nor an index of packages: the package has the library inside.
. "$top/tests/lib.sh"
needs python3

package=$top/library/python
version=$(cat "$top/VERSION")
# Nothing is fetched, and no library is found but that of the package.
export PIP_NO_INDEX=1 PIP_DISABLE_PIP_VERSION_CHECK=1 PIP_CONFIG_FILE=/dev/null PYTHONDONTWRITEBYTECODE=1
unset PBCNF_LIBRARY PYTHONPATH

mkdir bin
text bin/rt '#!/bin/sh' "touch '$PWD/rt-was-run'"
chmod 755 bin/rt
PATH=$PWD/bin:$PATH

if ! python3 -m venv fresh >"$state/venv" 2>&1 || ! fresh/bin/pip --version >"$state/venv" 2>&1; then
    skip "python3 makes no environment with pip: $(bytes_of "$state/venv")"
    exit 0
fi
python=fresh/bin/python
# An older pip builds in a copy of the folder, from where the library cannot be seen.
if ! $python -c 'import pip, sys; sys.exit([int(n) for n in pip.__version__.split(".")[:2]] < [21, 3])'; then
    skip 'pip is older than 21.3'
    exit 0
fi

# True if the last command printed these words, on either output; pip breaks no line of them.
mentions() {
    if cat "$said" "$told" | grep -Fq -- "$1"; then passed; else failed "$last: wanted '$1', got $(bytes_of "$told")"; fi
}

# The library that goes into a wheel, as the backend chooses it.
library=$(python3 -c 'import sys; sys.path.insert(0, sys.argv[1]); import backend; print(backend._library())' "$package" 2>"$told")

# Without the repository around it, or for what is no library, there is a line.
try_refusals() {
    cp -R "$package" alone
    expect 1 fresh/bin/pip install ./alone
    mentions './build builds it, and PBCNF_LIBRARY may name it'
    text no-library 'no library'
    expect 1 env PBCNF_LIBRARY="$PWD/no-library" fresh/bin/pip install ./alone
    mentions 'the library is for no system that is known here'
    expect 1 env PYTHONPATH="$package" $python -c 'import backend; backend.build_sdist(".")'
    says
    mentions 'there is no source distribution'
    expect 1 $python -c 'import pbcnf'
}

# What a program sees of the package: its version, and where the library is that it runs.
text seen.py 'import os, pbcnf' 'print(pbcnf.__version__, pbcnf.encode("+2 x1 +1 x2 +1 x3 >= 3 ;").clauses)' \
    'place = os.path.join(os.path.dirname(os.path.realpath(pbcnf.__file__)), "libpbcnf.so.0")' \
    'print("fresh" in place.split(os.sep), any(line.rstrip().endswith(place) for line in open("/proc/self/maps")))'

try_install() {
    expect 0 fresh/bin/pip install "$@" "$package"
    for command in solve minimize; do
        expect 0 fresh/bin/pbcnf-$command --version
        says "pbcnf $version"
    done
    expect 0 $python seen.py
    says "$version [[1], [2, 3]]" 'True True'
    tells
}

# A checker of types sees those of the package from a program that has it installed.
try_types() {
    if ! has mypy; then
        skip 'there is no mypy'
        return
    fi
    text typed.py 'import pbcnf' 'reveal_type(pbcnf.encode("", general="tree").clauses[0])' 'pbcnf.encode("", general="sorter")'
    expect 1 mypy --strict --cache-dir=/dev/null --enable-incomplete-feature=Unpack --python-executable $python typed.py
    mentions 'Revealed type is "builtins.list[builtins.int]"'
    mentions 'Argument "general" to "encode" has incompatible type'
}

# The wheel is for just the systems that have what the library asks for, and the same each time.
try_wheel() {
    local wheel least
    for folder in wheels again; do expect 0 fresh/bin/pip wheel --no-deps -w $folder "$package"; done
    wheel=$(cd wheels && echo ./*)
    wheel=${wheel#./}
    if has objdump; then
        least=$(objdump -T "$library" | grep -o 'GLIBC_2\.[0-9]*' | sort -t. -k2n | tail -n 1)
        text due "pbcnf-$version-py3-none-manylinux_2_${least#GLIBC_2.}_$(uname -m).whl"
        text got "$wheel"
        same due got
    else
        skip 'there is no objdump'
    fi
    same "wheels/$wheel" "again/$wheel"
    expect 0 python3 -m zipfile -e "wheels/$wheel" inside
    (cd inside && find . -type f | LC_ALL=C sort) >found
    (cd "$package" && find pbcnf -name '*.py' -o -name py.typed) >modules
    { printf "pbcnf-$version.dist-info/%s\n" METADATA RECORD WHEEL entry_points.txt && echo pbcnf/libpbcnf.so.0 && cat modules; } |
        sed 's|^|./|' | LC_ALL=C sort >due
    same due found
    same "$library" inside/pbcnf/libpbcnf.so.0
    expect 0 fresh/bin/pip install --force-reinstall "wheels/$wheel"
    expect 0 $python seen.py
    says "$version [[1], [2, 3]]" 'True True'
}

try_refusals
if [ -z "$library" ]; then
    skip 'there is no library that a package could bring; ./build builds it'
    exit 0
fi
try_install --no-build-isolation
for tests in module values; do expect 0 $python "$top/tests/library/$tests.py"; done
try_types
expect 0 fresh/bin/pip uninstall -y pbcnf
expect 0 find fresh -name '*pbcnf*'
says
try_install
try_wheel
absent rt-was-run "$package/build" "$package/pbcnf.egg-info"
