# What `loftsplice` does in the repository and in the archive alike; sourced, by a script that has set `program` and `version`. POSIX sh.
# It gives help and version, runs the program, and makes an exit status of the last line that the program wrote on standard error. Standard output
# passes through as it is written; standard error is held to the end.

say() { printf 'loftsplice: %s\n' "$1" >&2; }

not_written() { printf 'not written: %s\n' "$1" >&2; exit 74; }

# The end of a call that needs no program, by the status of what wrote: one that a signal ended, since its reader stopped, ends quietly.
told() {
  [ "$1" -le 128 ] || exit "$1"
  [ "$1" = 0 ] || not_written 'standard output takes no more'
  exit 0
}

help() {
  cat 2>/dev/null <<'END'
loftsplice check FILE [--rising]
    sound, runs, length, first and last element, rising yes or no: a line each;
    with --rising a column that does not rise is refused, 7
loftsplice list FILE [START END] [--from V | --above V] [--to V | --below V]
    the elements at the indices from START up to but not including END, or all;
    not below V, above V; not above V, below V: one element a line
loftsplice find FILE K.. [--filled | --count]
loftsplice find FILE --numbers NUMBERS [--filled | --count]
    for each number K a line: 'K carried at index I', or 'K filled'; the numbers are
    the words K, or the lines of the file NUMBERS;
    with --filled only the lines of those that are filled, with --count the two sums
loftsplice totals FILE [START END]..
    for each window, or for all of the column, a line: how many elements it has, the
    least, the greatest and the exact sum; then the same over all windows, at most 256
loftsplice build NUMBERS
    the record of the column that is built from the lines of the file NUMBERS, at most
    524,288, each a number, in runs as long as they get: to standard output
loftsplice import BITMAP COUNT OUT
    the record of the column of the records that are present in the file BITMAP, among
    COUNT records, at most 524,288: record i is bit i mod 8 of byte i / 8, lowest first
loftsplice export FILE COUNT OUT
    the bitmap of a column that rises, of COUNT records
loftsplice audit FILE COUNT [START END] [--profile 1|2]
    which of COUNT records, or of those from START up to but not including END, are
    filled: how many, how many carry the field, whether that is all of them, where the
    proof stands; then the filled ones, a range a line, 13..19 from 13 to 19. By profile 1,
    which needs no word, the column lists the records that carry the field, by profile 2
    those that leave it empty
loftsplice help | --help | -h
loftsplice --version

FILE holds one column as a stored record, and nothing else. For FILE, NUMBERS or BITMAP
- is standard input, for OUT standard output. The file OUT is written whole, or stays as
it was. Options stand anywhere before a word --, their values after a space or after =.
check, list, find, totals and audit take --format csv or --format json, audit --format html too.

Answers go to standard output, messages to standard error. The last line there, and the
exit status:
    refused N NAME        N, for example 'refused 2 ENDS': the input is refused, and why;
                          1 SHAPE: build or import would need over 4,096 runs;
                          5 WINDOW: END is above the length, of audit above COUNT;
                          7 ORDER: list, find, export, audit and check --rising take
                          elements that rise; 8 BOUNDS: there are over 256 windows;
                          11 CUT: BITMAP has fewer bytes than COUNT records need;
                          14 COUNT: COUNT is above 524,288, of audit above
                          4,294,967,295; 15 RANGE: an element is not below COUNT, or below
                          0; 16 PROFILE: it is neither 1 nor 2; 18 TOTAL: the sum over all
                          windows is below -2^95 or not below 2^95; else 2, 3, 11, 12, 13:
                          the record is damaged
    usage                 64: a word is not as above; which is said
    N of M bytes used     65: the file has bytes after its record, and is not answered
    no number             65: a line of NUMBERS is none; which is said
    too many numbers      65: build holds no more than 524,288
    no file               66: a file can't be opened or read
    not written           74: standard output takes no more, or OUT can't be written
70: the program is not there and could not be built.
END
  told "$?"
}

# Words that need no program: help and version, anywhere before a --.
early() {
  # a shell that is to redirect a closed output says so in its own words, and may end with 1 or 2
  (: 3>&1) 2>/dev/null || not_written 'standard output is closed'
  [ "${1-}" != help ] || help
  for word do
    case $word in
      --) break ;;
      -h | --help) help ;;
      --version) printf 'loftsplice %s\n' "$version" 2>/dev/null; told "$?" ;;
    esac
  done
}

# The file that import and export write, their third operand; - for all else. Words are counted as the program counts them; it says where they are wrong.
operand_out() {
  out=- operands=0 plain=
  case ${1-} in import | export) shift ;; *) return ;; esac
  for word do
    [ "$plain$word" != -- ] || { plain=yes; continue; }
    operands=$((operands + 1))
    [ "$operands" != 3 ] || out=$word
  done
}

# Opens a file beside OUT, through a link beside what it names: it takes OUT's place once the call is answered, so that OUT is written whole, or stays
# as it was. Where it can't be opened `part` is empty.
beside() {
  part=
  [ ! -L "$out" ] || out=$(readlink -f -- "$out")
  [ ! -e "$out" ] || { [ -f "$out" ] && [ -w "$out" ]; } || return
  (set -C && : > "$out.part$$") 2>/dev/null || return
  part=$out.part$$
  trap 'rm -f -- "$part"' EXIT
  trap 'exit 129' HUP
  trap 'exit 130' INT
  trap 'exit 143' TERM
}

# What the program says on standard error, and its status; what it writes goes to 3.
answer() { said=$("$program" "$@" 2>&1 >&3 3>&-); status=$?; }

run() {
  operand_out "$@"
  if [ "$out" = - ]; then
    answer "$@" 3>&1
    # the program is told by an error that its reader stopped, where a shell is ended by a signal, as a byte more into the pipe shows: then nothing is said
    case $said in *'not written') if [ -p /dev/stdout ] || [ -S /dev/stdout ]; then (printf '\n') 2>/dev/null; [ "$?" != 141 ] || exit 141; fi ;; esac
  else
    beside
    answer "$@" 3> "${part:-/dev/null}"
  fi
  [ -z "$said" ] || printf '%s\n' "$said" >&2
  [ "$status" = 0 ] || exit "$status"
  last=${said##*'
'}
  case $last in
    'refused '*) last=${last#refused }; exit "${last%% *}" ;;
    usage) exit 64 ;;
    *' bytes used' | 'no number' | 'too many numbers') exit 65 ;;
    'no file') exit 66 ;;
    'not written') exit 74 ;;
  esac
  [ "$out" = - ] || { [ -n "$part" ] && mv -f -- "$part" "$out" 2>/dev/null; } || not_written "the file $out can't be written"
  exit 0
}
