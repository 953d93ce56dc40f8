# Waits in bash: prints `NAME MILLISECONDS MICROSECONDS RESULT` for each wait. See ../main.c.

now() { echo "${EPOCHREALTIME/./}"; }

in_seconds_read() { read -r -t 0.03 line <> <(sleep 4); echo $(($? > 128)); }
reads() { read -r line < <(sleep 0.03; echo hi); echo "$line"; }
sleeps() { sleep 0.03; echo $?; }
waits() { (sleep 0.03; exit 3) & wait $!; echo $?; }
waits_any() { (sleep 0.03; exit 4) & (sleep 4) & wait -n; echo $?; kill %2; }
coprocess() { coproc { sleep 0.03; echo hi; }; read -r line <&"${COPROC[0]}"; echo "$line"; }
timeouts() { timeout 0.03 sleep 4; echo $?; }
pipeline() { (sleep 0.03; echo a; echo b) | wc -l; }
substitutes() { echo "$(sleep 0.03; echo hi)"; }
kills() { sleep 4 & (sleep 0.03; kill $!) & wait $!; echo $?; }
fifo() { local d; d=$(mktemp -d); mkfifo "$d/p"; (sleep 0.03; echo hi >"$d/p") & read -r line <"$d/p"; echo "$line"; rm -r "$d"; }
locks() { local f; f=$(mktemp); (flock 9; sleep 0.04) 9>"$f" & sleep 0.01; flock "$f" echo got; rm "$f"; }

case_of() {
    BASHPID_OF=$BASHPID
    local begun=$(now)
    result=$($1 | tr '\n' ' ')
    echo "$1 $2 $(($(now) - begun)) $result"
}

case_inline() { # for those whose trap ends them
    BASHPID_OF=$BASHPID
    local begun=$(now)
    trap 'echo "$1 $2 $(($(now) - begun)) fired"; exit' USR1
    (sleep 0.03; kill -USR1 $BASHPID_OF) &
    exec 8<> <(sleep 4)
    read -r line <&8
}

files=$(mktemp -d)
number=10
for each in "in_seconds_read 30" "reads 30" "sleeps 30" "waits 30" "waits_any 30" "coprocess 30" "timeouts 30" \
    "pipeline 30" "substitutes 30" "kills 30" "fifo 30" "locks 40"; do
    number=$((number + 1))
    case_of $each >"$files/$number" 2>/dev/null &
done
case_inline trapped_read 30 >"$files/99" 2>/dev/null &
wait
cat "$files"/*
rm -r "$files"
