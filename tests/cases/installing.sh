# ./install puts the program, the library, the commands over solvers and their pages in their places, each whole or not at all, and takes them away
# again; what is older than the sources it refuses. It is tried on a small repository, which then is not there any more.
. "$top/tests/lib.sh"
. "$top/tests/repository.sh"

needs sha256sum readlink find xargs awk
prefix=$PWD/'another place'
program=${built[0]}
source=$copy/crates/pbcnf/src/inner/One
commands='cheapest core hints minimize solve tidy veripb'

# install_copy WORD..: the copy's script.
install_copy() {
    "$copy/install" "$@"
}

# told_of WORD..: the last command printed a line with each on standard error.
told_of() {
    local word
    for word in "$@"; do
        if grep -Fq -- "$word" "$told"; then passed; else failed "$last: wanted a line with $word, got $(bytes_of "$told")"; fi
    done
}

# has_just FOLDER NAME..: just these files and links are below it.
has_just() {
    (cd "$1" && find . ! -type d | sed 's|^\./||' | LC_ALL=C sort) >found
    shift
    printf '%s\n' "$@" | LC_ALL=C sort >wanted
    last="the files of $prefix"
    same wanted found
}

# The small repository, with all that is installed, and a release that has the program that is tested. Nothing is built there.
make_copy() {
    make_repository
    cp -- "$pbcnf" "$program"
    expect 0 "$copy/release/take"
    rm -- "${built[@]}"
    cp -- "$top/install" "$copy"
    cp -R -- "$examples" "$top/docs" "$copy"
    cp -R -- "$top"/library/pbcnf{.h,.hpp,-config.cmake,-config-version.cmake} "$top/library/python" "$copy/library"
    touch -d '2020-01-02' "$shipped"/*
    keep
}

modules=$(cd "$top/library/python/pbcnf" && echo py.typed *.py */*.py)
program_files=(bin/pbcnf share/man/man1/pbcnf.1 share/bash-completion/completions/pbcnf share/pbcnf/folders)
for command in $commands; do
    program_files+=(bin/pbcnf-$command share/man/man1/pbcnf-$command.1 share/bash-completion/completions/pbcnf-$command)
done
for module in $modules; do program_files+=("share/pbcnf/pbcnf/$module"); done
library_files=(include/pbcnf.h{,pp} lib/libpbcnf.a lib/libpbcnf.so{,.0} lib/pkgconfig/pbcnf.pc
    lib/cmake/pbcnf/pbcnf-config{,-version}.cmake)

# All of the release, over what was there before too, and away again.
try_release() {
    local command
    expect 0 install_copy "$prefix"
    tells
    has_just "$prefix" "${program_files[@]}" "${library_files[@]}"
    same "$pbcnf" "$prefix/bin/pbcnf"
    same "$copy/docs/pbcnf.1" "$prefix/share/man/man1/pbcnf.1"
    same "$copy/docs/pbcnf.bash" "$prefix"/share/bash-completion/completions/pbcnf{,-solve,-hints}
    for command in $commands; do
        same "$copy/library/python/command" "$prefix/bin/pbcnf-$command"
        same "$copy/docs/pbcnf-$command.1" "$prefix/share/man/man1/pbcnf-$command.1"
    done
    same "$copy/library/pbcnf.h" "$prefix/include/pbcnf.h"
    same "$shipped/libpbcnf.a" "$prefix/lib/libpbcnf.a"
    same "$shipped/libpbcnf.so.0" "$prefix/lib/libpbcnf.so.0" "$prefix/lib/libpbcnf.so"
    for module in $modules; do same "$copy/library/python/pbcnf/$module" "$prefix/share/pbcnf/pbcnf/$module"; done
    grep '^[Vp]' "$prefix/lib/pkgconfig/pbcnf.pc" >lines
    holds lines "prefix=$prefix" 'Version: 1.2.3'
    expect 0 "$prefix/bin/pbcnf" bench 1 0
    # Everybody may run what is to be run, and read all.
    expect 0 find "$prefix" \( -type d -o -path '*/bin/*' -type f -o -name '*.so.*' -type f \) ! -perm 755
    says
    expect 0 find "$prefix" -type f ! -path '*/bin/*' ! -name '*.so.*' ! -perm 644
    says
    without_output() {
        install_copy "$1" >&- 2>&-
    }
    expect 0 without_output "$prefix"
    has_just "$prefix" "${program_files[@]}" "${library_files[@]}"
    # What was put before is replaced; a file may be a link elsewhere, which then is none any more.
    text elsewhere 'this is kept'
    ln -sf "$PWD/elsewhere" "$prefix/bin/pbcnf"
    expect 0 install_copy "$prefix"
    same "$pbcnf" "$prefix/bin/pbcnf"
    holds elsewhere 'this is kept'
    mkdir "$prefix"/share/pbcnf/pbcnf/{,pysat/,tools/}__pycache__
    text "$prefix/share/pbcnf/pbcnf/__pycache__/__init__.cpython-311.pyc" 'a cache'
    text "$prefix/share/pbcnf/pbcnf/pysat/__pycache__/card.cpython-311.pyc" 'a cache'
    text "$prefix/share/pbcnf/pbcnf/tools/__pycache__/solve.cpython-311.pyc" 'a cache'
    expect 0 install_copy --remove "$prefix"
    tells
    expect 0 find "$prefix" -mindepth 1
    says
    expect 0 install_copy --remove "$prefix"
    says
    tells
}

# Folders that were there before stay, and others' files.
try_strangers() {
    mkdir -p "$prefix"/{bin,lib/pkgconfig}
    expect 0 install_copy "$prefix/"
    text "$prefix/share/man/man1/other.1" 'the page of another'
    expect 0 install_copy "$prefix"
    expect 0 install_copy --remove "$prefix"
    (cd "$prefix" && find . | LC_ALL=C sort) >found
    holds found . ./bin ./lib ./lib/pkgconfig ./share ./share/man ./share/man/man1 ./share/man/man1/other.1
    rm -r "$prefix"
    # A name from here, and none at all of one's own.
    expect 0 install_copy here
    same "$pbcnf" here/bin/pbcnf
    expect 0 grep -x "prefix=$PWD/here" here/lib/pkgconfig/pbcnf.pc
    expect 0 install_copy --remove here
    rmdir here
}

# What was built here is taken where it is newer than the release; what is older than a source is not.
try_built() {
    text "$program" '#!/bin/sh' 'echo built'
    chmod 755 "$program"
    text "${built[1]}" 'another archive'
    text "${built[2]}" 'another library'
    expect 0 install_copy "$prefix"
    same "$program" "$prefix/bin/pbcnf"
    same "${built[1]}" "$prefix/lib/libpbcnf.a"
    same "${built[2]}" "$prefix/lib/libpbcnf.so.0"
    touch -d '2020-01-01 12:00' "${built[@]}"
    expect 0 install_copy "$prefix"
    same "$pbcnf" "$prefix/bin/pbcnf"
    same "$shipped/libpbcnf.a" "$prefix/lib/libpbcnf.a"
    expect 0 install_copy --remove "$prefix"
    # Now the release is of other sources, and the program is older than they are.
    text "$source" 'Another source.'
    touch -d '2020-01-03' "$source"
    refused 'older than the sources' ./build
    touch -d '2020-01-04' "$program"
    expect 0 install_copy "$prefix"
    same "$program" "$prefix/bin/pbcnf"
    same "${built[1]}" "$prefix/lib/libpbcnf.a"
    expect 0 install_copy --remove "$prefix"
    # The library is older than a source that it shares with the program.
    touch -d '2020-01-03' "$copy/crates/pb_low/src/inner/One"
    expect 0 install_copy "$prefix"
    told_of 'the library is left out' ./build
    has_just "$prefix" "${program_files[@]}"
    expect 0 install_copy --remove "$prefix"
    rm "$program"
    refused 'the sources are others' ./build
    rm -r "$copy/release"
    refused ./build
    undo
}

# refused WORD..: nothing is installed, and a line says why.
refused() {
    expect 69 install_copy "$prefix"
    says
    told_of "$@"
    expect 0 find "$prefix" -mindepth 1
    says
}

# kept_at PLACE LINE..: it ends with 73 and such a line, and has put nothing.
kept_at() {
    find "$1" | LC_ALL=C sort >before
    expect 73 install_copy "$1"
    says
    told_of "${@:2}"
    find "$1" | LC_ALL=C sort >after
    same before after
}

# Where a file cannot be written none is, and which is said.
try_faults() {
    mkdir -p one/bin two/bin/pbcnf-cheapest three
    text one/bin/pbcnf 'an old program'
    text one/share 'no folder'
    kept_at one "$PWD/one/share/man/man1/pbcnf.1 could not be written"
    holds one/bin/pbcnf 'an old program'
    kept_at two "$PWD/two/bin/pbcnf-cheapest is a folder"
    text four 'no folder'
    expect 73 install_copy four/place
    says
    told_of "$PWD/four/place"
    # Rights: as a user who is not root, the copy and all above it can be read.
    chmod 555 three
    if [ "$(id -u)" -ne 0 ]; then
        kept_at three "$PWD/three/bin/pbcnf could not be written"
    elif setpriv --reuid=65534 --regid=65534 --clear-groups test -r "$copy/install" 2>"$state/setpriv"; then
        expect 73 setpriv --reuid=65534 --regid=65534 --clear-groups "$copy/install" "$PWD/three"
        says
        told_of "$PWD/three/bin/pbcnf could not be written"
        expect 0 find three -mindepth 1
        says
    else
        skip "no other user can read the copy: $(bytes_of "$state/setpriv")"
    fi
    # No room for the program; and a signal while it is copied.
    small_files() {
        (
            trap '' XFSZ
            limited --fsize=8192 -- "$copy/install" "$1"
        )
    }
    if has prlimit; then
        expect 73 small_files six
        says
        told_of "$PWD/six/bin/pbcnf could not be written"
    else
        skip 'there is no prlimit'
    fi
    mkdir plays
    text plays/cp '#!/bin/sh' 'kill -TERM "$PPID"' "exec $(command -v cp) \"\$@\""
    chmod 755 plays/cp
    expect 143 env PATH="$PWD/plays:$PATH" "$copy/install" six
    says
    expect 0 find six -mindepth 1
    says
    rm -r plays
    # A file that cannot be taken away leaves the others no longer.
    expect 0 install_copy five
    rm five/bin/pbcnf
    mkdir five/bin/pbcnf
    expect 73 install_copy --remove "$PWD/five"
    told_of "$PWD/five/bin/pbcnf"
    expect 0 find five ! -type d
    says
}

# The installed commands, from another folder and without the repository; a solver is played where there is none.
try_commands() {
    local way command
    expect 0 install_copy "$prefix"
    mv "$copy" away
    mkdir elsewhere.d plays
    cd elsewhere.d || exit
    export PYTHONDONTWRITEBYTECODE=1
    text "$work/$subject/plays/solver" '#!/bin/sh' 'echo s SATISFIABLE' 'echo v 1 -2 -3 0'
    chmod 755 "$work/$subject/plays/solver"
    text small.opb '+1 rain +1 sun +1 snow >= 1 ;' '+1 rain +1 sun <= 1 ;'
    on_path() {
        PATH=$prefix/bin:$PATH SOLVER=../plays/solver "$@"
    }
    by_place() {
        SOLVER=../plays/solver "$prefix/bin/$1" "${@:2}"
    }
    for way in on_path by_place; do
        expect 0 $way pbcnf-solve small.opb
        says 's SATISFIABLE' 'v rain -sun -snow'
        tells
    done
    for command in $commands; do
        expect 2 on_path pbcnf-$command
        told_of 'usage: pbcnf-'
    done
    text empty.drat
    expect 0 on_path pbcnf encode small.opb small.cnf
    expect 1 on_path pbcnf-hints small.cnf empty.drat
    tells 'pbcnf-hints: the texts end without a conflict, so that nothing is refuted'
    if has cadical; then
        expect 0 env -u SOLVER PATH="$prefix/bin:$PATH" pbcnf-cheapest "$examples/guards.opb"
        grep '^[os] ' "$said" | tail -n 2 >ends
        holds ends 'o 20' 's OPTIMUM FOUND'
        told_of 'pbcnf-minimize: ' '20 <= objective <= 20'
    else
        skip 'there is no cadical'
    fi
    cd ..
    mv away "$copy"
}

# Without Python, that is said; and without the program.
try_missing() {
    local command
    expect 0 install_copy "$prefix"
    mkdir tools
    for command in sh dirname readlink; do ln -s "$(command -v $command)" tools/$command; done
    for command in solve tidy; do
        expect 69 env PATH="$PWD/tools" "$prefix/bin/pbcnf-$command" small.opb
        says
        tells "pbcnf-$command: python3 is not on the path; Python 3.8 or later is needed"
    done
    has python3 || return
    rm "$prefix/bin/pbcnf"
    printf '#!/bin/sh\nexec "%s" "$@"\n' "$(python3 -c 'import sys; print(sys.executable)')" >tools/python3
    chmod 755 tools/python3
    for command in solve minimize; do
        expect 69 env PATH="$PWD/tools" "$prefix/bin/pbcnf-$command" small.opb
        says
        tells "pbcnf-${command}: pbcnf is not on the path"
    done
}

make_copy
needs_to_run "$shipped/pbcnf"
expect 2 install_copy --help
expect 2 install_copy a b
expect 2 install_copy ''
absent a b
try_release
try_strangers
mkdir "$prefix"
try_built
try_faults
if has python3; then try_commands; else skip 'there is no python3'; fi
try_missing

if has man && has groff; then
    for page in "$top"/docs/*.1; do
        expect 0 env MANPAGER=cat man --warnings -l "$page"
        tells
    done
else
    skip 'there is no man, or no groff'
fi

completed pbcnf ''
says encode wcnf check refute decode optimum map probe bench
completed pbcnf re
says refute
completed pbcnf encode --general ''
says diagram tree adder
completed pbcnf encode --amo = l
says ladder
completed pbcnf check -
says --at-most= --at-most-minus=
text a.opb '+1 x1 >= 1 ;'
completed pbcnf encode a.
says a.opb
completed pbcnf-solve a.
says a.opb
completed pbcnf-hints a.
says a.opb
completed pbcnf-solve a.opb --at
says --at-most= --at-most-minus=
completed pbcnf-cheapest a.opb --card t
says totalizer
completed pbcnf-minimize a.opb --j
says --jobs
