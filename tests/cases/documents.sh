# The commands that the documents print, run as they are there, with the output that is printed after them.
. "$top/tests/lib.sh"

solvers='cadical kissat cryptominisat5 clasp picosat glucose minisat'
# No page has pip fetch anything, and the commands over solvers run the program that is tested, and build none.
export PIP_NO_INDEX=1 PIP_DISABLE_PIP_VERSION_CHECK=1 PYTHONDONTWRITEBYTECODE=1 PBCNF=$pbcnf

# The tools that a block of commands names and that are not there.
missing() {
    local tool any=
    for tool in $solvers drat-trim parallel python3 cc; do
        has $tool && continue
        grep -Eq "(^|[|=] ?|for )$tool( |\$)" "$1" && printf '%s ' $tool
    done
    if grep -Eq '(examples/|pbcnf-)(cheapest|minimize|core|[a-z]*\.py)' "$1" && ! has cadical; then printf 'cadical '; fi
    if grep -Eq '(examples/|pbcnf-)(cheapest|minimize|core|hints|solve|tidy|veripb)' "$1" && ! has python3; then printf 'python3 '; fi
    if grep -Eq '(examples/|pbcnf-)solve' "$1"; then
        for tool in $solvers; do
            has $tool && any=$tool
        done
        [ -n "$any" ] || printf 'solver '
    fi
    # The programs of docs/LIBRARY.md are named so.
    if grep -Eq '/page/local/|(^|[ /])first[./]' "$1"; then
        [ -f page/local/lib/libpbcnf.a ] || printf 'built library '
        ! grep -q venv "$1" || python3 -c 'import ensurepip, venv' 2>"$state/venv" || printf 'venv of python3 '
        for tool in c++ cmake cargo python3; do
            has $tool || ! grep -Fq "$tool " "$1" || printf '%s ' $tool
        done
    fi
}

# What a page has installed below ~/.local is put into a folder of its own.
install_all() {
    local block
    installs "$PWD/page/local"
    for block in blocks/*.sh; do
        sed "s|~/\.local|$PWD/page/local|g" "$block" >"$block.new" && mv "$block.new" "$block"
    done
}

# complain BLOCK WHY: unless it lacks what a block that was skipped makes.
complain() {
    if [ "$skipped" = yes ] && grep -Eq 'read fault|No such file|cannot open' "$1.got"; then
        skip "$page: $(head -n 1 "$1.sh"): it needs what a block that was skipped makes"
    else
        failed "$page: $(head -n 1 "$1.sh"): $2, got $(bytes_of "$1.got")"
    fi
}

# prints_all LINES OUTPUT: each line of the one is a line of the other.
prints_all() {
    local line
    while IFS= read -r line; do
        grep -Fxq -- "$line" "$2" || return 1
    done <"$1"
}

# compare BLOCK: what it printed with what the page prints.
compare() {
    if [ -e "$1.out" ]; then
        awk -f "$top/tests/shows.awk" "$1.out" "$1.got"
        case $? in
        0) passed ;;
        2) skip "$page: $(head -n 1 "$1.sh"): this solver finds another solution" ;;
        *) complain "$1" "wanted $(bytes_of "$1.out")" ;;
        esac
    elif [ -e "$1.says" ]; then
        if prints_all "$1.says" "$1.got"; then passed; else complain "$1" "wanted $(bytes_of "$1.says")"; fi
    elif grep -q 'pbcnf: ' "$1.got"; then
        complain "$1" 'wanted no fault line'
    else
        passed
    fi
}

# run_page PAGE: its blocks, in their order, in a folder with the program and the examples.
run_page() {
    local block=1 lacks
    page=${1#"$top/"}
    skipped=no
    mkdir -p page blocks
    cp -R "$examples" page/examples
    ln -s "$pbcnf" page/pbcnf
    ln -s "$top/library" page/library
    awk -v to=blocks -f "$top/tests/blocks.awk" "$1"
    [ ! -d blocks/files ] || cp -R blocks/files/. page
    if grep -q '~/\.local/' "$1"; then install_all; fi
    while [ -e blocks/$block.sh ]; do
        lacks=$(missing blocks/$block.sh)
        if [ -n "$lacks" ]; then
            skip "$page: $(head -n 1 blocks/$block.sh): there is no ${lacks% }"
            skipped=yes
        else
            (cd page && exec bash ../blocks/$block.sh) >blocks/$block.got 2>&1
            compare blocks/$block
        fi
        block=$((block + 1))
    done
    rm -rf page blocks
}

for page in "$top"/README.md "$top"/docs/*.md; do
    run_page "$page"
done
