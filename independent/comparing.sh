# How the answers of the proved programs and of the independent one are compared, and what each kind comes to.
# Sourced by suite.sh.
# shellcheck shell=bash disable=SC2034

independent=independent/target/release/independent

# Where the first input is kept whose answer is wrong.
keep=independent/target

# Cargo may have been told to build elsewhere; the path above would then name an old program.
build_independent() {
    (cd independent && CARGO_TARGET_DIR=target cargo build --release --offline --quiet)
}

in_files() { # FORM
    [[ $1 == .* ]]
}

# The most inputs that are compared at a time: they and their answers take room.
batch_of() { # NAME FORM
    if in_files "$2"; then echo 1000; elif [ "$1" = root_digits ]; then echo 8192; else echo 65536; fi
}

# Has the independent program make inputs, in the file or folder PLACE.
make_inputs() { # NAME FORM PLACE COMMAND...
    local name=$1 form=$2 place=$3
    shift 3
    if in_files "$form"; then
        rm -rf "$place" && mkdir "$place" && "$independent" "$name" "$@" "$place"
    else
        "$independent" "$name" "$@" >"$place"
    fi
}

count_inputs() { # FORM PLACE
    if in_files "$1"; then
        find "$2" -name "*$1" | wc -l
    else
        echo $(($(wc -c <"$2") / $1))
    fi
}

# The proved program's answers, into the file or folder OURS.
answer_ours() { # NAME FORM INPUTS OURS
    if in_files "$2"; then
        find "$3" -name "*$2" -print0 | answer_files "$1" "$4"
    else
        ./tailfiddle run "$1" <"$3" >"$4"
    fi
}

# Its answers to the files whose names come in, a zero byte behind each, into a new folder: the answer to
# NAME.deck, or to NAME with another ending, is NAME.answer. The program is first run alone, so that it is
# built once where it is not built yet.
answer_files() { # NAME INTO
    mkdir "$2" && ./tailfiddle run "$1" </dev/null >/dev/null &&
        xargs -0 -r -n 100 -P "$(nproc)" ./tailfiddle run "$1" "$2"
}

# The independent program's, into the file or folder THEIRS.
answer_theirs() { # NAME FORM INPUTS THEIRS
    if in_files "$2"; then
        mkdir "$4" && "$independent" "$1" answers "$3" "$4"
    else
        "$independent" "$1" answers <"$3" >"$4"
    fi
}

# Runs inputs through the proved program and through the independent one and compares the answers. The
# decks that write_deck has written are checked too. Says what is wrong; status 1 for a difference, 2
# where a program failed. How often each kind was reached is added to the file KINDS.
compare() { # NAME FORM INPUTS KINDS
    local name=$1 form=$2 inputs=$3 kinds=$4 ours=$3.ours theirs=$3.theirs same=same_lines
    ! in_files "$form" || same=same_files
    rm -rf "$ours" "$theirs"
    if ! answer_ours "$name" "$form" "$inputs" "$ours"; then
        echo "$name: the proved program failed"
        return 2
    fi
    if ! answer_theirs "$name" "$form" "$inputs" "$theirs"; then
        echo "$name: the independent program failed"
        return 2
    fi
    "$same" "$name" "$form" "$inputs" "$ours" "$theirs" || return 1
    if [ "$name" = write_deck ]; then accepted "$inputs" "$ours" || return; fi
    if ! kinds_of "$name" "$form" "$inputs" "$ours" >"$ours.kinds"; then
        echo "$name: an input or an answer is of no kind that there is"
        return 2
    fi
    sort "$ours.kinds" | uniq -c >>"$kinds"
}

# The number of the first line in which two files differ; nothing where there is none.
first_difference() { # FILE FILE
    paste -d '|' "$1" "$2" | awk -F '|' '$1 "" != $2 "" { print NR; exit }'
}

line_of() { sed -n "$1p" "$2"; } # PLACE FILE

show_both() { # OURS THEIRS
    echo "  proved program:             $1"
    echo "  independent program:        $2"
}

# How many answers end in the lines that come in. Each line that has its line feed ends one, but for those
# of root_digits behind which the root is still to come.
answers_in() {
    sed -E '/^(turn|rounded) /d' | wc -l
}

# An answer for each input, one behind the other.
same_lines() { # NAME WIDTH INPUTS OURS THEIRS
    local name=$1 width=$2 inputs=$3 ours=$4 theirs=$5 count line place
    count=$(count_inputs "$width" "$inputs")
    line=$(first_difference "$ours" "$theirs")
    if [ -n "$line" ]; then
        place=$(($(head -n $((line - 1)) "$ours" | answers_in) + 1))
        echo "$name: the answers differ, first at input $place of $count"
        echo "  input, in words of 8 bytes: $(od -An -v -t x8 -j $(((place - 1) * width)) -N "$width" "$inputs" | xargs)"
        show_both "$(line_of "$line" "$ours")" "$(line_of "$line" "$theirs")"
        return 1
    fi
    if [ "$(answers_in <"$ours")" -ne "$count" ]; then
        echo "$name: $count inputs, and $(answers_in <"$ours") answers from each program"
        return 1
    fi
}

# One file for each input, the same to the last byte.
same_files() { # NAME ENDING INPUTS OURS THEIRS
    local name=$1 ending=$2 inputs=$3 ours=$4 theirs=$5 count proved other input answer
    count=$(count_inputs "$ending" "$inputs")
    proved=$(count_inputs .answer "$ours")
    other=$(count_inputs .answer "$theirs")
    if [ "$proved" -ne "$count" ] || [ "$other" -ne "$count" ]; then
        echo "$name: $count inputs, and $proved answers of the proved program, $other of the independent one"
        return 1
    fi
    ! diff -rq "$ours" "$theirs" >/dev/null || return 0
    for input in "$inputs"/*"$ending"; do
        answer=$(basename "$input" "$ending").answer
        cmp -s "$ours/$answer" "$theirs/$answer" || break
    done
    echo "$name: the answers differ, first for ${input##*/}, $(wc -c <"$input") bytes"
    show_input "$input"
    show_difference "$ours/$answer" "$theirs/$answer"
    return 1
}

# An input that is a file. It is kept.
show_input() { # INPUT
    local kept=$keep/differs.${1##*.}
    cp "$1" "$kept" && echo "  it is kept:                 $kept"
    [ "$(wc -c <"$1")" -gt 400 ] ||
        echo "  input, in hex:              $(od -An -v -t x1 "$1" | tr -d ' \n')"
}

# Where two answers first differ: in a line, or, where one of them is no text, at a byte.
show_difference() { # OURS THEIRS
    local place
    if is_text "$1" && is_text "$2"; then
        place=$(first_difference "$1" "$2")
        echo "  first in line:              ${place:-none; the last one is ended in one answer alone}"
        show_both "$(line_of "${place:-$}" "$1")" "$(line_of "${place:-$}" "$2")"
    else
        place=$(first_byte "$1" "$2")
        echo "  first at byte, from 0 on:   $place, in hex"
        show_both "$(byte_of "$place" "$1")" "$(byte_of "$place" "$2")"
    fi
}

is_text() { # FILE
    [ "$(tr -d '\n -~' <"$1" | wc -c)" -eq 0 ]
}

# How many bytes two files have in common before they first differ or one ends.
first_byte() { # FILE FILE
    { cmp -l "$1" "$2" 2>/dev/null; wc -c <"$1"; wc -c <"$2"; } |
        awk 'NF == 3 { place = $1 - 1; exit } NR == 1 || $1 < place { place = $1 } END { print place }'
}

byte_of() { # PLACE FILE
    local byte
    byte=$(od -An -v -t x1 -j "$1" -N 1 "$2" | tr -d ' ')
    echo "${byte:-none, it has ended}, of $(wc -c <"$2") bytes"
}

kinds_of() { # NAME FORM INPUTS ANSWERS
    if in_files "$2"; then
        "$independent" "$1" kinds "$3" "$4"
    else
        awk '{ print $1 == "refused" ? $1 " " $2 : $1 }' "$4" && "$independent" "$1" traits <"$3"
    fi
}

# Has check_deck list the decks that write_deck wrote for whole problems, 256 at most, behind a version and its
# form: each has a card for each problem, with the problem's object and epoch or none, and no verdict but 0. Status
# as compare's.
accepted() { # PROBLEMS DECKS
    local listings=$2.listed name version count wrong
    rm -rf "$listings"
    whole_problems "$1" >"$2.counts"
    if ! while read -r name _; do printf '%s\0' "$2/$name.answer"; done <"$2.counts" | answer_files check_deck "$listings"; then
        echo "check_deck: the proved program failed on a deck that write_deck wrote"
        return 2
    fi
    while read -r name version count; do
        given_tags "$version" "$count" "$1/$name.problems" >"$2.tags"
        wrong=$(all_accepted "$2.tags" "$listings/$name.answer") && continue
        echo "write_deck: check_deck does not accept each card of the deck for $name.problems, $count problems, version $version"
        echo "  it lists:                   $wrong"
        show_input "$1/$name.problems"
        return 1
    done <"$2.counts"
}

# The files of PROBLEMS that have such problems, each with its version and how many they are: 'NAME 2 17'.
whole_problems() { # PROBLEMS
    local list=$1.list
    find "$1" -name '*.problems' -size +7c -print0 | sort -z >"$list"
    paste -d ' ' <(xargs -0 -r head -q -c 8 <"$list" | od -An -v -t u4 -w8) <(xargs -0 -r stat -c '%s %n' <"$list") |
        awk '{ each = $1 == 1 && $2 == 0 ? 68 : $1 == 2 && $2 == 1 ? 80 : 0; bytes = $3 - 8 }
            each && bytes % each == 0 && bytes <= 256 * each {
                sub(/.*\//, ""); sub(/\.problems$/, "")
                print $0, each == 68 ? 1 : 2, bytes / each
            }'
}

# What the card of each problem is listed with, as od reads it: object and epoch, or '- -'.
given_tags() { # VERSION COUNT PROBLEMS
    if [ "$1" = 1 ]; then
        yes -- '- -' | head -n "$2"
    else
        od -An -v -j 8 -w80 -t u4 -t d8 "$3" | awk 'NR % 2 { object = $18; next } { print object, $10 }'
    fi
}

# Whether a listing is one of cards with these TAGS and the verdict 0: before its last three lines stands nothing
# else. Says the first line that is wrong, or the last one where there are too few or too many.
all_accepted() { # TAGS LISTING
    awk 'FILENAME == ARGV[1] { tag[++count] = $0; next }
        { line = $0; lines++ }
        lines <= count && line != "card " lines " solved " tag[lines] " 0" && line != "card " lines " refused " tag[lines] " 0" {
            wrong = 1
            exit
        }
        END { if (wrong || lines != count + 3) { print line; exit 1 } }' "$1" "$2"
}

# The test by physics: transfers are solved, Kepler is set off with each velocity that was found, and its
# positions are held to those that the transfers were to reach. A RUN is a command, in words, that reads
# records and prints a line for each, as './tailfiddle run transfer'. SCRATCH is a folder, made anew. Says
# what came of it; status 1 where an arrival is too far off, goes by the other way, is refused with a number
# that it should not be, or there are too few, or where the lines are not such as a program prints; 2 where a
# program failed.
arrivals() { # RUN_TRANSFER RUN_PREDICT SCRATCH
    local transfer predict folder=$3 status=0
    read -ra transfer <<<"$1"
    read -ra predict <<<"$2"
    if ! { rm -rf "$folder" && mkdir "$folder" && "$independent" transfer arcs >"$folder/records"; }; then
        echo "arrivals: the independent program made no transfers"
        return 2
    fi
    if ! "${transfer[@]}" <"$folder/records" >"$folder/lines"; then
        echo "arrivals: $1 failed"
        return 2
    fi
    if ! "$independent" transfer departures "$folder/records" "$folder/lines" >"$folder/problems" 2>"$folder/said"; then
        echo "arrivals: $(cat "$folder/said")"
        return 1
    fi
    if ! "${predict[@]}" <"$folder/problems" >"$folder/outcomes"; then
        echo "arrivals: $2 failed"
        return 2
    fi
    "$independent" transfer arrivals "$folder/records" "$folder/lines" "$folder/outcomes" >"$folder/said" 2>&1 || status=1
    sed 's/^/arrivals: /' "$folder/said"
    return "$status"
}

# Prints what compare has added to KINDS, a line for each kind: 'refused 9: 78'.
sum_kinds() { # KINDS
    awk '{ n = $1; sub(/^ *[0-9]+ /, ""); sum[$0] += n } END { for (kind in sum) printf "%s: %.0f\n", kind, sum[kind] }' "$1" |
        sort -k 1,1 -k 2,2n
}

show_kinds() { # KINDS
    sum_kinds "$1" | paste -s -d ',' | sed 's/,/, /g'
}

# Says which kinds were reached less often than a suite's list, WANTED, asks; status 1 if any was.
scarce_kinds() { # KINDS WANTED
    sum_kinds "$1" | awk -F ': ' -v wanted="$2" '
        { reached[$1] = $2 }
        END {
            count = split(wanted, kinds, ", ")
            for (i = 1; i <= count; i++) {
                split(kinds[i], kind, ": ")
                if (reached[kind[1]] + 0 < kind[2] + 0)
                    printf "%s%s: %d, not %s", said++ ? ", " : "", kind[1], reached[kind[1]], kind[2]
            }
            exit said > 0
        }'
}
