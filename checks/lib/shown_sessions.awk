# Extracts the sessions that a chapter of a document shows. The variable `title` is the heading of the chapter. The commands after `$ ` and the lines
# that are typed after them are written to the file `script`, and their output is written to the file `printed`. In a session, typed lines are mixed
# with output. A line counts as typed if it is in a text (after wire or asm, up to the dot), or if it does not look like an answer. A command can have
# its own text, `<< 'EOF'`. Images are skipped.

function is_answer(line) {
    return line ~ /^(session|ok|no) [0-9]|^(lamps|breaks|watches|seq|state|acc|keys) .|^[0-9A-F][0-9A-F][0-9A-F] [0-9A-F][0-9A-F]( |$)|^[0-7]\.[0-3](\.[0-3])? |^ram [0-7] chips|^(rom|ram|chain)[0-9].* (in|out) |^mcs4: /
}

function end_session() {
    if (serves) print "end_of_lines" > script
    serves = 0
}

/^##? / { chapter = $0 == title }

!chapter || !/^    / { next }

{ sub(/^    /, "") }

until_word != "" {
    print > script
    if ($0 == until_word) until_word = ""
    next
}

/^[$] / {
    end_session()
    sub(/^[$] /, "")
    in_text = 0
    if (match($0, /<< *'[A-Za-z]+'/)) {
        until_word = substr($0, RSTART, RLENGTH)
        gsub(/[<' ]/, "", until_word)
        print > script
    } else if ($0 ~ /^\.\/mcs4 (new|open) [^ ]+$/) {
        print $0 " << 'end_of_lines'" > script
        serves = 1
    } else print > script
    shown++
    next
}

!shown { next }

in_text || (serves && /^[a-z]+( [^ ]+)*$/ && !is_answer($0)) {
    print > script
    if (in_text ? $0 == "." : $0 ~ /^(wire|asm)$/) in_text = !in_text
    next
}

serves && !is_answer($0) { next }

{ print > printed }

END { end_session() }
