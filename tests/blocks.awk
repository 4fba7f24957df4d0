# Takes the blocks of commands out of a page, and what the page says that they print.
#
# usage: awk -v to=FOLDER -f blocks.awk PAGE
#
# A block between ``` lines is of commands where it runs ./pbcnf or a script of examples/, or is marked as one of `sh`. The next
# block is its output, unless that is of commands too, or a heading or a second paragraph stands between; where the lines of
# commands begin with `$ `, the others are the output. Where there is none, a paragraph may say it: right after the block as
# `It says ..`, or right before it, with a colon at the end. A block with a name after the word for its language is a file.
# It makes N.sh, N.out for the output, and N.says for lines that are among it, for N = 1, 2, .., and files/NAME.

function is_command(line) {
    return line ~ /(^|[ (|])\.\/pbcnf / || line ~ /^(\$ )?([A-Z]+=[^ ]* )?examples\/[a-z]/
}

# What fetches or installs something is left out.
function is_for_once(line) {
    return line ~ /^(\$ )?(git|cd|sudo|apt-get) /
}

# Writes down the answers that a paragraph says; those that hang on no solver alone.
function note_answers(paragraph,    word) {
    while (match(paragraph, /(says|prints) `(accepted|refuted|conflict|fixed [-0-9 ]* 0|s UNSATISFIABLE)`/)) {
        word = substr(paragraph, RSTART, RLENGTH - 1)
        paragraph = substr(paragraph, RSTART + RLENGTH)
        sub(/^[a-z]* `/, "", word)
        print word > (to "/" number ".says")
    }
}

function end_paragraph() {
    if (paragraph == "") return
    before = paragraph
    if (is_behind && paragraph ~ /^(It|The last) (says|prints) `/) {
        note_answers(paragraph)
        before = ""
    }
    if (!is_behind) lacks_output = 0
    is_behind = 0
    paragraph = ""
}

# A file that the page has, in a folder of its own if its name says so.
function end_file(    i, place) {
    place = to "/files/" file
    sub(/[^\/]*$/, "", place)
    system("mkdir -p \"" place "\"")
    printf "" > (to "/files/" file)
    for (i = 1; i <= lines; i++) print line[i] > (to "/files/" file)
    close(to "/files/" file)
}

function end_block(    i, prompts) {
    if (file != "") {
        end_file()
    } else if (commands) {
        number++
        for (i = 1; i <= lines; i++) prompts += line[i] ~ /^\$ /
        for (i = 1; i <= lines; i++) {
            if (prompts && line[i] !~ /^\$ /) {
                print line[i] > (to "/" number ".out")
            } else if (!is_for_once(line[i])) {
                sub(/^\$ /, "", line[i])
                print line[i] > (to "/" number ".sh")
            }
        }
        lacks_output = is_behind = !prompts
        if (before ~ /:$/) note_answers(before)
    } else if (lacks_output) {
        for (i = 1; i <= lines; i++) print line[i] > (to "/" number ".out")
        lacks_output = 0
    }
    before = ""
}

/^ *```/ {
    end_paragraph()
    inside = !inside
    if (inside) {
        lines = 0
        commands = $1 == "```sh"
        file = NF == 2 ? $2 : ""
        indent = match($0, /`/) - 1
    } else {
        end_block()
    }
    next
}
inside {
    line[++lines] = substr($0, 1, indent) ~ /^ *$/ ? substr($0, indent + 1) : $0
    commands += is_command(line[lines])
    next
}
/^#/ {
    end_paragraph()
    lacks_output = is_behind = 0
    before = ""
    next
}
/^[ \t]*$/ {
    end_paragraph()
    next
}
{ paragraph = paragraph (paragraph == "" ? "" : " ") $0 }
END { end_paragraph() }
