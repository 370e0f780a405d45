#!/bin/bash
# Lists the places in src/ that the eight points of docs/DESIGN-PASS.md speak of, by what their lines look like.
# tools/places.sh [-v] [POINT..]: the count of each pattern, with -v its lines too.
cd "$(dirname "$0")/.." || exit 1
verbose=no
if [ "$1" = -v ]; then verbose=yes; shift; fi
points=${*:-1 2 3 4 5 6 7 8}
src() { git ls-files -- 'crates/*/src/*.rt'; }
hits() { # hits LABEL PATTERN
    local lines
    lines=$(src | xargs grep -nHE -e "$2")
    echo "  $(printf '%s' "$lines" | grep -c .)  $1"
    if [ $verbose = yes ]; then printf '%s\n' "$lines" | sed 's/^/      /'; fi
}
repeated() { # repeated LABEL LEAST COMMAND..: texts that come at least LEAST times
    local label=$1 least=$2 lines
    shift 2
    lines=$("$@" | LC_ALL=C sort | uniq -c | awk -v n="$least" '$1 >= n')
    echo "  $(printf '%s' "$lines" | grep -c .)  $label"
    if [ $verbose = yes ]; then printf '%s\n' "$lines" | sed 's/^/      /'; fi
}
names() { src | xargs grep -ohE '^ *(pub |pub\(crate\) )?fn [a-z_]+' | sed -E 's/^ *(pub |pub\(crate\) )?//'; }
clauses() { src | xargs grep -ohE '(requires|ensures) ([a-z_]+ )?\{.*\}' | sed -E 's/(requires|ensures) ([a-z_]+ )?//'; }
pairs() { src | xargs grep -ohE '[a-z_]+: [^,()]+, [a-z_]+: [^,()]+' ; }
for p in $points; do
    case $p in
    1)  echo "1 own Option and Result, flags, numbers for kinds"
        hits 'enums' '^ *(pub |pub\(crate\) )?enum '
        hits 'an arm that hands a failure on' 'Err\([a-z_]+\) => (Err|Ok)'
        hits 'a failure made by return' 'return Err\('
        hits 'None => a value, Some(_) => a value' '^ *None => '
        hits 'a number matched as a kind' '^ *[0-9]+( \| [0-9]+)* => '
        hits 'a flag or a number that stands for no value' '1_000_001|cap \+ 1|over: bool|-> bool$|\.over'
        ;;
    2)  echo "2 twins"
        repeated 'function names that come twice or more' 2 names
        hits '513, the most steps' '[^0-9]513[^0-9]|MOST_STEPS|MOST\b'
        hits 'a byte put where there is room' 'fn put_|fn set_byte'
        ;;
    3)  echo "3 loops by hand"
        hits 'for over a range' 'for [a-z_(), ]+ in .*\.\.'
        hits 'for with its index' '\.enumerate\(\)'
        hits 'while and loop' '^ *('"'"'[a-z]+: )?(while|loop)\b'
        ;;
    4)  echo "4 equality, order, copying, conversion, printing by hand"
        hits 'bytes compared one by one or by ==' "(==|>=|<=|<|>) \*?b['\"]|as_slice\(\) ==|== b\""
        hits 'functions that turn or print' 'fn (number|place|layer|line|[a-z]+_line|hex_[a-z]+|same|top|code|get|value|is_[a-z]+|[a-z]+_of|byte)\('
        ;;
    5)  echo "5 facts in three contracts or more, parameters that travel together"
        repeated 'clauses that come three times or more' 3 clauses
        repeated 'pairs of parameters that come three times or more' 3 pairs
        ;;
    6)  echo "6 buffers with a length beside"
        hits 'a count beside a table' '^ *(pub |pub\(crate\) )?(count|filled): (u8|usize),'
        hits 'tables of a fixed size in a type' '^ *(pub |pub\(crate\) )?[a-z_]+: \[.*; ?[A-Z_0-9]+\],'
        ;;
    7)  echo "7 a switch on which step to run"
        hits 'enums of steps, and matches on self' '^enum |match self'
        ;;
    8)  echo "8 proofs"
        echo "  $(git ls-files -- 'crates/*/proofs/*Answers.antt' | wc -l)  files of answers"
        echo "  $(git ls-files -- 'crates/*/proofs/*Invariants.antt' | wc -l)  files of invariants"
        echo "  $(git ls-files -- 'crates/*/proofs/*.antt' | xargs grep -hE '^pub [a-z]' | wc -l)  answers and lemmas"
        ;;
    esac
done
