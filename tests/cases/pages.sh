# What the pages name is there: files, headings, crates. README is short, the picture of the layers is that of crates.txt, and the page
# of claims is what the contracts and their comments say.
. "$top/tests/lib.sh"

# Each is passed or failed by what it prints.
finds_none() {
    local what=$1 found
    shift
    found=$("$@") || failed "$what: the search itself failed"
    if [ -z "$found" ]; then
        passed
    else
        while IFS= read -r line; do failed "$what: $line"; done <<<"$found"
    fi
}

pages() {
    (cd "$top" && printf '%s\n' README.md CONTRIBUTING.md CHANGELOG.md docs/*.md)
}

# A page without its blocks of commands and output.
prose() {
    awk '/^```/ { inside = !inside; next } !inside' "$top/$1"
}

# Each link of a page to a place in the repository: the page, the file by its path, and the heading, which may be none.
links() {
    local page target
    pages | while IFS= read -r page; do
        prose "$page" | grep -o '](\([^)]*\))' | sed 's/^](//; s/)$//' | while IFS= read -r target; do
            case $target in
            http*) ;;
            '#'*) printf '%s %s %s\n' "$page" "$page" "${target#\#}" ;;
            *'#'*) printf '%s %s %s\n' "$page" "$(dirname "$page")/${target%%#*}" "${target#*#}" ;;
            *) printf '%s %s\n' "$page" "$(dirname "$page")/$target" ;;
            esac
        done
    done
}

lost_links() {
    local page file heading
    links | while read -r page file heading; do
        if [ ! -e "$top/$file" ]; then
            printf '%s: %s is not there\n' "$page" "$file"
        elif [ -n "$heading" ] && ! headings "$file" | grep -qxF -- "$heading"; then
            printf '%s: %s has no heading %s\n' "$page" "$file" "$heading"
        fi
    done
}

# The headings of a page as links name them.
headings() {
    prose "$1" | sed -n 's/^#\{1,6\} //p' | tr '[:upper:]' '[:lower:]' | sed 's/[^a-z0-9 _-]//g; s/ /-/g'
}

# The words in code type of a page, one a line with the page before it.
code() {
    local page
    pages | while IFS= read -r page; do
        prose "$page" | grep -o '`[^`]*`' | tr -d '`' | sort -u | sed "s|^|$page |"
    done
}

# Files of the repository by their paths, as docs/tools/layers or crates/pb_norm/specs. A name with `..` stands for several.
lost_files() {
    code | while read -r page name rest; do
        case $name in
        *..* | *'*'* | library/out*) ;;
        library/* | docs/* | examples/* | tests/* | bench/* | crates/* | .ci/* | ./pbcnf | ./install)
            [ -e "$top/$name" ] || printf '%s: %s is not there\n' "$page" "$name"
            ;;
        esac
    done
}

# Crates, and files of crates, as pb_norm/specs/Forced.
lost_crates() {
    code | while read -r page name rest; do
        case $name in
        *..* | *'*'*) continue ;;
        pb_* | pbcnf_c | pbcnf_c/*) ;;
        *) continue ;;
        esac
        crate=${name%%/*}
        grep -q "^${crate}[ :]" "$top/crates.txt" || printf '%s: %s is no crate\n' "$page" "$crate"
        case $name in
        */src/* | */specs/* | */proofs/*)
            compgen -G "$top/crates/$name*" >/dev/null || printf '%s: %s is not there\n' "$page" "$name"
            ;;
        esac
    done
}

# Crates that no row of the table of layers has.
unplaced_crates() {
    sed 's/#.*//; s/:.*//; s/ .*//; /^$/d' "$top/crates.txt" | while IFS= read -r crate; do
        grep -q "^|[^|]*|[^|]*\`$crate\`" "$top/docs/ARCHITECTURE.md" || printf '%s\n' "$crate"
    done
}

long_lines() {
    awk 'length > 200 { print "line " FNR " has " length " bytes" } END { if (FNR > 70) print FNR " lines" }' "$top/README.md"
}

# The sentences of more than 45 words, of all pages but CHANGELOG.md.
long_sentences() {
    (cd "$top" && docs/tools/sentences README.md CONTRIBUTING.md docs/*.md)
}

# Files that have another version than VERSION.
other_versions() {
    "$top/docs/tools/version" --check
    [ $? -le 1 ]
}

# Names that gave way to the field's word, if docs/GLOSSARY.md has the word in their place.
retired_words() {
    local words='Owed|owed_[a-z]+|Owing|Obeys|ObeysWithin|Obeying|Poses|IsPosed|PosedProblems|Outbox|Sheet|Wear|Ways|Turns?Of|HandedReasons'
    words+='|take_(claim|deletions?|meanings?|propagated|steps|clauses|row|rows|output|outputs|node|part)|[a-z]+_reasons?|[A-Z][a-z]+Meanings?'
    (cd "$top" && grep -rnowE "$words" crates --include='*.rt' --include='*.antt' --include='*.edit' --exclude-dir=out)
    (cd "$top" && grep -nowE "\`($words)\`" README.md CONTRIBUTING.md docs/*.md)
    return 0
}

# The spec files of crates that are in no folder of the four that docs/ARCHITECTURE.md names.
misplaced_specs() {
    (cd "$top/crates" && find . -path '*/specs/*' -name '*.antt' -not -path '*/out/*' | grep -vE '/specs/((inner|laws|examples|reader)/)?[^/]+$')
    return 0
}

# The pages that name the logic of the kit, where it is another. Kits of one logic prove the same, whatever their own names are.
other_logic() {
    local logic page
    logic=$(rt version | grep -o 'logic [0-9a-f]*')
    for page in README.md CONTRIBUTING.md; do
        grep -qF -- "${logic:-no logic}" "$top/$page" || printf '%s does not name %s\n' "$page" "${logic:-it, for rt version has none}"
    done
}

last=pages
finds_none 'a link' lost_links
finds_none 'a file' lost_files
finds_none 'a crate' lost_crates
finds_none 'a crate that docs/ARCHITECTURE.md does not place' unplaced_crates
finds_none 'README.md' long_lines
finds_none 'a version' other_versions
finds_none 'a retired word' retired_words
finds_none 'a definition' misplaced_specs
if has python3; then
    "$top/docs/tools/layers" --print >layers.svg
    same "$top/docs/layers.svg" layers.svg
    "$top/docs/tools/claims" >claims.md
    same "$top/docs/CLAIMS.md" claims.md
    finds_none 'a statement' "$top/docs/tools/claims" --faults
    finds_none 'a long sentence' long_sentences
else
    skip 'there is no python3, which draws docs/layers.svg, prints docs/CLAIMS.md and counts words'
fi
if has rt; then
    finds_none 'the logic of the kit' other_logic
else
    skip 'there is no rt, whose logic the pages name'
fi
