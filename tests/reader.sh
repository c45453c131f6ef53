# How rows of programs are read, as programs/README writes them: for a script that says what `check` does at the end of
# each row, and has set $work to a folder of its own. Then read_rows FILE TOPIC goes through a file, and in `check`
# run_row WORDS.. runs the row with its words after those, which are in $words, one run in a line. $row is its name,
# $work/output and $work/errors what it must write, $work/got_output and $work/got_errors what it wrote;
# $want_status and $status are the status that it must have and the one that it had.
newline='
'

# An awk program that writes a topic's rows as calls of `row`, `part`, `part_of` and `check`.
rows_as_calls='
function quote(text,    pieces, count, at, quoted) {
    count = split(text, pieces, "\047")
    quoted = "\047" pieces[1]
    for (at = 2; at <= count; at++) quoted = quoted "\047\\\047\047" pieces[at]
    return quoted "\047"
}
function end_part() {
    if (key != "") print call, quote(key), quote(name), quote(text)
    key = ""
}
function end_row() {
    end_part()
    if (open) print "set_status; check"
    open = 0
}
function bad(why) {
    print "echo " quote("tests: " topic " line " NR ": " why) " >&2; exit 1"
    stopped = 1
    exit
}
/^#/ || /^$/ { end_part(); next }
/[ \t]$/ && ! /^[a-z-]+( [^ :]+)?: ?$/ { bad("a blank at the end, which nobody sees") }
/^ / {
    if (key == "") bad("a line of no part")
    text = text substr($0, 2) "\n"
    next
}
/^row: / {
    end_row()
    open = 1
    split("", before)
    print "row", quote(substr($0, 6))
    next
}
{
    end_part()
    if (!open || !match($0, /^[a-z-]+( [^ :]+)?:( |$)/)) bad("no part of a row")
    head = substr($0, 1, RLENGTH)
    sub(/: ?$/, "", head)
    text = substr($0, RLENGTH + 1)
    if (text != "") text = text "\n"
    name = head
    if (!sub(/^[^ ]* /, "", name)) name = ""
    key = head
    sub(/ .*/, "", key)
    call = "part"
    if (sub(/-of$/, "", key)) call = "part_of"
    if (key !~ /^(words|program|input|file|beside|after|output|errors|errors-begin|status)$/ ||
        (name == "") != (key !~ /^(file|beside)$/)) bad("no part of a row")
    if ((key " " name) in before) bad("a part that stood before")
    before[key " " name]
}
END { if (!stopped) end_row() }
'

# A row begins: what holds where nothing is said.
row() {
    row=$1
    words='' after='' operands='' program='' program_told=no begin_told=no want_status=''
    rm -rf "$work/files"
    mkdir "$work/files"
    : >"$work/input"
    : >"$work/output"
    : >"$work/errors"
}

# A part with key $1 and name $2, its lines in $3, each with its newline.
part() {
    case $1 in
    words) words=${3%"$newline"} ;;
    after) after=${3%"$newline"} ;;
    status) want_status=${3%"$newline"} ;;
    program) program=${3%"$newline"} program_told=yes ;;
    file | beside) printf %s "$3" >"$work/files/$2" ;;
    errors-begin)
        begin_told=yes
        printf %s "${3%"$newline"}" >"$work/errors"
        ;;
    *) printf %s "$3" >"$work/$1" ;;
    esac
    if [ "$1" = file ]; then
        operands="$operands '$2'"
    fi
}

# Writes the text $2 as many times as $1 says, for a shell command that writes a part.
repeat() {
    text=$2 awk -v count="$1" 'BEGIN { for (at = 0; at < count; at++) printf "%s", ENVIRON["text"] }' </dev/null
}

# Writes these lines and the last line of a table, which has their digest, for a shell command that writes a part.
sealed() {
    printf '%s\n' "$@" >"$work/lines"
    cat "$work/lines"
    printf 'end 64:%s\n' "$(sha256sum <"$work/lines" | cut -d ' ' -f 1)"
}

# A part with key $1 and name $2, its bytes written by the shell command $3.
part_of() {
    eval "$3" >"$work/part"
    case $1 in
    program)
        # The x keeps the newlines at the end.
        program=$(cat "$work/part" && echo x)
        program=${program%x}
        program=${program%"$newline"} program_told=yes
        ;;
    file | beside) cp "$work/part" "$work/files/$2" ;;
    *) cp "$work/part" "$work/$1" ;;
    esac
    if [ "$1" = file ]; then
        operands="$operands '$2'"
    fi
}

# Runs the row in the folder of its files, with its words after those that are given.
run_row() {
    eval "set -- \"\$@\" $words"
    if [ "$program_told" = yes ]; then
        set -- "$@" "$program"
    fi
    eval "set -- \"\$@\" $operands $after"
    status=0
    (cd "$work/files" && exec "$@") \
        <"$work/input" >"$work/got_output" 2>"$work/got_errors" || status=$?
}

# The status that the row wants where it names none.
set_status() {
    if [ -z "$want_status" ]; then
        want_status=0
        if [ -s "$work/errors" ]; then
            want_status=2
        fi
    fi
}

# Goes through the file $1, whose rows are of topic $2.
read_rows() {
    awk -v topic="$2" "$rows_as_calls" "$1" >"$work/calls"
    . "$work/calls"
}
