# What `./run` and the installed programs have in common: what each program is for, and the exit status that a program of
# this repository has not got of its own (it only writes). It is read by `.`, and whoever reads it says before
#
#   called     how a user calls programs here, as './run '; a name comes after it
#   start      a function that runs the program of the name that it is given, on its own standard input
#
# A standard input that is closed is noted and opened at once: whatever is opened next would stand in its place.
#
# POSIX sh.
# shellcheck shell=sh disable=SC2154

closed=''
(exec 3<&0) 2>/dev/null || { closed=1; exec </dev/null; }

# What a program is for, its arguments, its statuses and an example. Without a name: what there is.
help_of() {
    case $1 in
    judge) cat <<END
${called}judge [FILE...]

Says of each file what it is, one line each with the file's name before it; without files, of the bytes on standard input,
with no name:

  complete 3 2 2 node 1 length 1 batch 7 letters 2     a share: n, k, d (0 of a preview), node, L, batch, letters
  unfinished                                           the beginning of a share, but not all of it (no bytes, too)
  malformed 9 at 4                                     neither: what is wrong, and the index, from 0, of the first byte that
                                                       can't stand; 8 the kind of a record, 9 a number of the head, 10 a
                                                       zero that fills the last block, 11 the total, 12 after the end
  too long for this program                            more than 65,536 bytes: ${called}watch takes any length

Exit status: 0 complete, 1 unfinished, 3 malformed, 4 too long, 5 no judgment, since the input can't be read or the line not
written, 2 no proved program to run. Of several files the highest. A letter that was flipped on the disk is not noticed.

  ${called}judge examples/complete.share examples/cut.share
  ${called}judge < examples/complete.share
END
        ;;
    watch) cat <<END
${called}watch < FILE

Judges a share while it comes in on standard input, however slowly and however long, and keeps none of it. It writes the line that
judge writes for such bytes, as soon as it is known: at the first byte that can't stand it stops reading; a share is complete only
when the input ends, since a byte more would make it malformed.

  complete 3 2 2 node 1 length 1 batch 7 letters 2     a share: n, k, d (0 of a preview), node, L, batch, letters
  unfinished                                           the input ended within a share (no bytes, too)
  malformed 9 at 4                                     neither: what is wrong, by the numbers that judge's help has, and
                                                       where, from 0

On standard error: whose share it is and how many of how many bytes are in, moving where that is a terminal, and otherwise one line
at the end; of a byte that can't stand, what would stand there.

Exit status: 0 complete, 1 unfinished, 3 malformed, 5 no judgment, since the input can't be read or the line not written, 2 no
proved program to run. A letter that was flipped on the way is not noticed.

  ${called}watch < examples/complete.share
  tee COPY < examples/complete.share | ${called}watch
END
        ;;
    odd) cat <<END
${called}odd FILE FILE...

Compares the shares of one batch, in any order, and says of each node whether it agrees with the others; of one that doesn't,
where its first wrong letter stands. It takes k+2 nodes or more: with them one wrong node can be told, whichever it is.

  a.share: node 6 agrees
  b.share: node 3 is odd: its first wrong letter is letter 17 of packet 2, at index 1234, from 0, of this file
  c.share: node 3: can't be told
  all 6 nodes agree                                    the last line has the answer
  node 3 alone is odd: the 5 others agree
  more than one node is wrong: nothing can be said of any of them

Letters and packets count from 1, and the index in the file from 0. What is in the way of an answer is said on standard error, of
every file: one that can't be read (also one whose name isn't UTF-8), is unfinished or malformed, holds previews, is of another group or batch than the first, or
of a node that was there before; or too few. Each file is read twice, so it must stay as it is meanwhile. All shares together have
at most 3,932,160 letters, and a share 1,048,576 bytes; of longer batches the library's call tells the same.

Exit status: 0 all agree, 1 one is odd, 3 more than one is wrong, 5 no answer, 2 no proved program to run.

  ${called}odd /disks/*/0001.share
END
        ;;
    tour) cat <<END
${called}tour

A whole night in one screen: a batch is spread over six disks, one fills up, two are lost, one is rebuilt from four others,
and the batch comes back from three. Exit status: 0, or 1 where anything came back other than it was; 2 no proved program
to run.

  ${called}tour
END
        ;;
    desk) cat <<END
${called}desk

Runs the worked examples P1 to P12 through the library's calls, compares each with what must come out and says in the last
line how many lines of them agreed. Exit status: 0 all, 1 not all, 2 no proved program to run.

  ${called}desk
END
        ;;
    *) return 1 ;;
    esac
}

# The status of a line that judge or watch wrote; an empty one means that it could not read.
status_of_line() {
    case $1 in
    'complete '*) echo 0 ;;
    unfinished) echo 1 ;;
    malformed*) echo 3 ;;
    'too long for this program') echo 4 ;;
    *) echo 5 ;;
    esac
}

# Judges standard input by the program $1; $2 stands before the line. The status is the line's. The program says itself that it can't read.
judge_input() {
    line=$(start "$1") || { echo "$1: the program itself failed" >&2; return 2; }
    [ -n "$line" ] || return 5
    printf '%s%s\n' "$2" "$line" || return 5
    return "$(status_of_line "$line")"
}

# Judges a file, and says what is the matter where it can't be read.
judge_file() {
    if [ -d "$1" ]; then
        echo "judge: $1: is a folder" >&2
    elif [ ! -e "$1" ]; then
        echo "judge: $1: there is no such file" >&2
    elif [ ! -r "$1" ]; then
        echo "judge: $1: may not be read" >&2
    else
        judge_input judge "$1: " < "$1"
        return
    fi
    return 5
}

# Judges standard input by the program $1, if it is open.
judge_open() {
    [ -z "$closed" ] || { echo "$1: standard input is closed" >&2; return 5; }
    judge_input "$1" ''
}

# Judges what comes in. A file that is named would be waited for in vain.
watch_input() {
    [ $# -eq 0 ] || { echo "watch: takes no arguments: the share comes on standard input" >&2; return 5; }
    judge_open watch
}

# Judges all files, or standard input where none is named. The highest status counts.
judge_all() {
    if [ $# -eq 0 ]; then
        judge_open judge
        return
    fi
    worst=0
    for file do
        judge_file "$file" && status=0 || status=$?
        [ "$status" -le "$worst" ] || worst=$status
    done
    return "$worst"
}

# The status of the last line that odd wrote; an empty one means that something is in the way of an answer, which it has said.
status_of_answer() {
    case $1 in
    'all '*' nodes agree') echo 0 ;;
    'node '*' alone is odd: '*) echo 1 ;;
    'more than one node is wrong: '*) echo 3 ;;
    *) echo 5 ;;
    esac
}

# Compares the shares of a batch. The program's memories are on its stack.
compare_shares() {
    said=$(start odd "$@") || { echo "odd: the program itself failed; it needs a stack of 8 MiB (ulimit -s)" >&2; return 2; }
    [ -n "$said" ] || return 5
    printf '%s\n' "$said" || return 5
    return "$(status_of_answer "${said##*
}")"
}

# Writes what a program writes. The status is 0 where the last line ends with these words and no line has a NOT.
run_and_look() {
    said=$(start "$1") || { echo "$1: the program itself failed" >&2; return 2; }
    printf '%s\n' "$said" || return 1
    case $said in
    *NOT*) return 1 ;;
    *"$2") return 0 ;;
    esac
    return 1
}

# Runs a program by name with its arguments, with the status that its help says.
run_program() {
    name=$1
    shift
    case ${1:-} in
    --help) help_of "$name"; return ;;
    --) shift ;;
    esac
    case $name in
    judge) judge_all "$@" ;;
    watch) watch_input "$@" ;;
    odd) compare_shares "$@" ;;
    tour) run_and_look tour 'It is the batch, letter for letter.' ;;
    desk) run_and_look desk 'lines of the examples agree: all' ;;
    *) start "$name" "$@" ;;
    esac
}
