#!/usr/bin/env bash
# The program zkv in bad company: closed descriptors, files exchanged or cut under it, full disks, locks held by others,
# readers that do not read, signals, FIFOs, links, limits, empty and endless input, wrong lists and usage, a disk that
# breaks; what its exit statuses and messages say; scans, lists, sheets, digests, loads and copies; what chunks and keys
# hold, and where a fault is; puts and deletes for a version in hand; registers with large chunks.
#
# tests/zkv.sh [PROGRAM]        host/build/zkv; says every check that does not hold, and ends with 1 if there is one;
#                               needs host/build/cut_clean (make -C host)
set -uo pipefail
cd "$(dirname "$0")/.."
zkv=$(realpath "${1:-host/build/zkv}")
tests=$PWD/tests host=$PWD/host
[ -x "$zkv" ] || { echo "$zkv is missing: run make -C host" >&2; exit 2; }
work=$(mktemp -d)
mounted=
trap '[ -z "$mounted" ] || umount "$mounted"; rm -rf "$work"' EXIT
cd "$work"
checks=0 failures=0

# hold WHAT COMMAND...: the command must end with 0.
hold() {
    local what=$1
    shift
    checks=$((checks + 1))
    "$@" || { echo "zkv: not so: $what" >&2; failures=$((failures + 1)); }
}
# ends STATUS COMMAND...: runs the program's command, output to out and err; must end with the status.
ends() {
    local wanted=$1 status=0
    shift
    timeout 20 "$zkv" "$@" > out 2> err < "${input:-/dev/null}" || status=$?
    hold "zkv $* ends with $wanted, not $status ($(head -c 200 err))" [ "$status" -eq "$wanted" ]
}
says() { hold "standard error says '$1', not '$(head -c 200 err)'" grep -qF -- "$1" err; }
prints() { hold "standard output is '$1', not '$(head -c 200 out)'" [ "$(cat out)" = "$1" ]; }
untouched() { hold "$1 is as it was" cmp -s "$1" "$2"; }
# until_locked FILE: another program has the lock.
until_locked() { for _ in $(seq 200); do flock -n "$1" true || return 0; sleep 0.02; done; return 1; }

fresh() {
    rm -rf l.img
    "$zkv" format l.img 16 --station 7 2> /dev/null
    printf 'A+ 450 ml' > value
    "$zkv" put l.img 4711 value
}

# 1. Descriptors 0 to 2 closed in all ways: no message reaches the image.
fresh
cp l.img before
for closed in '' '0<&-' '1>&-' '2>&-' '0<&- 1>&-' '0<&- 2>&-' '1>&- 2>&-' '0<&- 1>&- 2>&-'; do
    for command in 'delete l.img 77' 'put l.img 77 -' 'put l.img 77 nofile' 'format l.img 16' 'get l.img 4711' 'get l.img 77' 'scan l.img 77 value' \
        'dump l.img' 'sheet l.img' 'load l.img -' 'load l.img nofile' 'digest l.img' 'check l.img --json' 'copy l.img l.img' 'copy l.img c.img 5' \
        'get l.img 4711 --version' 'get l.img 77 --version' 'put l.img 77 - --if-version 0' 'put l.img 4711 value --if-version 9' \
        'delete l.img 4711 --if-version 9' 'delete l.img 77 --if-version 0'; do
        ( eval "exec $closed"; exec "$zkv" $command ) > /dev/null 2>&1 < /dev/null
        untouched l.img before
        cp before l.img
        rm -f c.img
    done
done
for command in 'get l.img 4711' 'get l.img 4711 --version' 'get l.img 77 --version'; do
    ( exec 1>&-; exec "$zkv" $command 2> /dev/null )
    status=$?
    hold "zkv $command with nowhere to print ends with 2, not $status" [ "$status" -eq 2 ]
done
( exec 0<&-; exec "$zkv" put l.img 4711 - 2> /dev/null )
status=$?
hold "a put with no standard input ends with 2, not $status" [ "$status" -eq 2 ]
untouched l.img before

# 2. The file is exchanged while a put waits for the lock, and in the middle of a put.
fresh
cp l.img new.img
flock l.img sleep 1.5 &
sleep 0.2
"$zkv" put l.img 5 value 2> /dev/null &
put=$!
sleep 0.3
mv new.img l.img
wait "$put"
status=$?
hold "a put that waited ends with 0, not $status" [ "$status" -eq 0 ]
ends 0 get l.img 5
prints 'A+ 450 ml'
wait
fresh
cp l.img new.img
"$zkv" put l.img 5 value --pause 100000 2> err &
put=$!
until_locked l.img
sleep 0.3
mv new.img l.img
wait "$put"
status=$?
hold "a put into a file that was exchanged meanwhile ends with 2, not $status" [ "$status" -eq 2 ]
says 'was exchanged'

# 3. No page for a part of the file: cut while it is mapped, cut where no store comes, holes on a full disk.
fresh
"$zkv" put l.img 5 value --pause 100000 2> err &
put=$!
until_locked l.img
sleep 0.3
truncate -s 0 l.img
wait "$put" 2> /dev/null
status=$?
hold "a put into a file that is cut to nothing ends with 2, not $status" [ "$status" -eq 2 ]
says 'the system has no page'
fresh
"$zkv" put l.img 5 value --pause 100000 2> err &
put=$!
until_locked l.img
sleep 0.3
truncate -s 32768 l.img
wait "$put" 2> /dev/null
status=$?
hold "a put into a file that is cut to its half ends with 2, not $status" [ "$status" -eq 2 ]
says 'was cut'
fresh
mkdir disk
if mount -t tmpfs -o size=96k none disk 2> /dev/null; then
    mounted=$work/disk
    cp --sparse=always l.img disk/holes.img
    printf '5\tB-\n' > list
    head -c 81920 /dev/urandom > disk/filler 2> /dev/null
    for command in 'put disk/holes.img 5 value' 'format disk/other.img 16' 'load disk/holes.img list' \
        'copy l.img disk/other.img'; do
        ends 2 $command
        hold "a message names the file: $(cat err)" grep -q '^zkv: disk/' err
    done
    hold "a format or copy that found no space leaves nothing behind: $(ls -A disk)" [ "$(ls -A disk | tr '\n' ' ')" = 'filler holes.img ' ]
    ends 0 check disk/holes.img                             # chunks that are free are not read, so their holes need no space
    rm disk/filler
    ends 0 put disk/holes.img 5 value
    ends 0 get disk/holes.img 4711
    umount disk
    mounted=
else
    echo "zkv: not tried, as no disk can be mounted here: holes on a full disk"
fi

# A program that takes no lock changes a label's length again and again, to one that no label can have: a get reads the
# whole label, or ends with a message and prints nothing.
fresh
head -c 1000 /dev/zero | tr '\0' x > long
ends 0 put l.img 6 long
python3 -c '
import mmap, struct, sys
with open(sys.argv[1], "r+b") as f:
    m, right, wrong = mmap.mmap(f.fileno(), 0), struct.pack("<Q", 1000), struct.pack("<Q", 30000)
    at = m.find(right + 8 * b"x")
    while True:
        m[at:at + 8] = wrong
        m[at:at + 8] = right
' l.img &
changing=$!
sleep 0.3
odd=0
for _ in $(seq 100); do
    status=0
    timeout 20 "$zkv" get l.img 6 > out 2> err || status=$?
    case $status in
    0) cmp -s out long ;;
    2 | 3) [ ! -s out ] ;;
    *) false ;;
    esac || odd=$((odd + 1))
done
hold "a get beside a program that changes the label's length ends as it should ($odd of 100 do not)" [ "$odd" -eq 0 ]
kill "$changing"
wait "$changing" 2> /dev/null

# 4. A failed or killed format leaves no file under the name, and a message says what an existing file holds.
rm -f f.img
"$zkv" format f.img 16 --pause 20000 2> /dev/null &
format=$!
sleep 0.5
hold "before its end a format has not made the file" [ ! -e f.img ]
kill -9 "$format"
wait "$format" 2> /dev/null
hold "a killed format leaves no file" [ ! -e f.img ]
ends 0 format f.img 16
ends 2 format f.img 16
says 'exists: a register, 0 labels'
fresh
cp l.img before
ends 2 format l.img 16
says 'exists: a register, 1 labels, station 7'
untouched l.img before
printf 'a letter' > letter
ends 2 format letter 4
says 'exists: 8 bytes, no register: refused 1'
hold "a letter is left alone" [ "$(cat letter)" = 'a letter' ]
head -c 16384 /dev/zero > zeros
ends 2 format zeros 4
says 'exists: 16384 bytes, no register: refused 2'
"$zkv" format l.img 16 --force --pause 20000 2> /dev/null &
format=$!
sleep 0.5
kill -9 "$format"
wait "$format" 2> /dev/null
untouched l.img before
cp before other.img
"$zkv" format l.img 16 --force --pause 5000 2> err &
format=$!
until_locked l.img
mv other.img l.img
wait "$format"
status=$?
hold "a format of a file that was exchanged meanwhile ends with 2, not $status" [ "$status" -eq 2 ]
says 'was exchanged'
untouched l.img before
: > empty.img
ends 0 format empty.img 4
ends 0 format zeros 4 --force
ends 0 check zeros
prints accepted
rm -f l.img.new-* f.img.new-*
hold "nothing is left beside the files: $(ls -A)" [ -z "$(ls -A | grep new-)" ]
# By a signal that asks it to end it ends, and removes what has no name yet; by one that is ignored it does not.
cp l.img before
for signal in INT TERM HUP; do
    for command in 'format s.img 16' 'format l.img 16 --force' 'copy l.img s.img'; do
        env --default-signal=$signal "$zkv" $command --pause 5000 2> /dev/null &
        job=$!
        for _ in $(seq 200); do [ -z "$(ls -A | grep new-)" ] || break; sleep 0.02; done
        hold "zkv $command has begun" [ -n "$(ls -A | grep new-)" ]
        kill -s $signal "$job"
        wait "$job" 2> /dev/null
        status=$?
        hold "zkv $command ends by $signal, and not with $status" [ "$status" -eq $((128 + $(kill -l $signal))) ]
        hold "$signal leaves nothing of zkv $command: $(ls -A)" [ -z "$(ls -A | grep -e new- -e '^s.img')" ]
        rm -f *.new-*
        untouched l.img before
    done
done
env --ignore-signal=HUP "$zkv" format s.img 16 --pause 1000 2> /dev/null &
job=$!
for _ in $(seq 200); do [ -z "$(ls -A | grep new-)" ] || break; sleep 0.02; done
kill -s HUP "$job"
wait "$job"
status=$?
hold "a format that is to ignore HUP ends with 0, not $status" [ "$status" -eq 0 ]
ends 0 check s.img
rm -f s.img

# 5. FIFOs and folders.
mkfifo fifo
for command in 'check fifo' 'get fifo 1' 'stat fifo' 'scan fifo 1 value' 'put fifo 1 value' 'format fifo 4' 'dump fifo' 'digest fifo' \
    'sheet fifo' 'load fifo list' 'copy fifo new.img'; do
    ends 2 $command
    says 'fifo: is no regular file'
done
ends 2 check disk
says 'no regular file'

# 6. Options in places where they have no meaning.
fresh
cp l.img before
for command in 'put l.img 5 --version' 'put l.img 5 --help' 'delete l.img 4711 --help' '--version put l.img 5 value' \
    'put l.img 5 value --force' 'get l.img 4711 --pause 5' 'put l.img 5' 'put l.img 5 value more' 'put' 'pat l.img 5 value' \
    'put l.img 5 value --pause' 'put l.img 5 value --pause x' 'put l.img 5 value --wait -1' 'format l.img' 'stat l.img --station 4' \
    'get l.img 4711 --json' 'check l.img --against' 'check l.img --against 12' 'list l.img --against 12' 'load l.img' 'copy l.img' \
    'copy l.img c.img 16 more' 'dump l.img more' 'digest l.img --json' 'copy l.img c.img --force' 'sheet' 'sheet l.img 5' 'sheet l.img --json'; do
    ends 2 $command
    hold "zkv $command says what is wrong, not '$(head -n 1 err)'" grep -Eq '^zkv: [a-z-]+: .' err
    hold "zkv $command shows how it is used" grep -q '^usage: zkv' err
done
ends 2 put l.img 5 --version
says 'zkv: put: it has no such option: --version'
ends 2 put l.img 5
says 'zkv: put: a word is missing behind: 5'
ends 2 put l.img 18446744073709551616 value
says 'l.img: 18446744073709551616 is no key'
ends 2 format l.img 1x6
says 'l.img: 1x6 is no number of chunks'
untouched l.img before
ends 0 --version
for command in '--help' '-h' 'help' 'put --help' 'help put' 'list --help' 'sheet --help' 'help sheet'; do
    ends 0 $command
    hold "zkv $command prints how it is used: $(head -n 1 out)" grep -q '^usage: zkv' out
    hold "zkv $command prints it to standard output: $(cat err)" [ ! -s err ]
done
ends 0 put --help
hold "zkv put --help is of put alone: $(cat out)" [ "$(grep -c zkv out)" -eq 1 ]
ends 2 help pat
says 'zkv: pat: there is no such command'
# The manual page has a line and an entry for each command that the usage has.
named=$("$zkv" help | sed -n 's/^.* zkv \([a-z]*\) FILE.*/\1/p')
hold "the usage has its commands: $named" [ "$(echo "$named" | grep -cx -e format -e list -e sheet -e copy)" -eq 4 ]
for command in $named; do
    hold "the manual page has zkv $command" [ "$(grep -c -e "^.fBzkv $command.fR .fIFILE" -e "^.fB$command.fR .fIFILE" "$host/zkv.1")" -eq 2 ]
done
cp value ./--force
ends 0 put l.img 6 -- --force
ends 0 get l.img 6
prints 'A+ 450 ml'

# Leading zeros of a key are no part of it, and that is said.
for command in 'put l.img 007 value' 'get l.img 007' 'scan l.img 007 value' 'history l.img 007' 'delete l.img 007'; do
    ends 0 $command
    says 'zkv: l.img: 007 is key 7: leading zeros are no part of a key'
done
printf '5\tA+\n007\tB-\n0008\tB-\n0\tB-\n' > list
ends 0 load l.img list
says 'zkv: list: line 2: leading zeros are no part of a key: it is key 7 (2 such lines)'
ends 0 get l.img 7
hold "nothing is said of a key without leading zeros: $(cat err)" [ ! -s err ]
ends 0 get l.img 0
hold "nothing is said of key 0: $(cat err)" [ ! -s err ]

# 7. No bytes are no label, unless they are meant.
fresh
false | "$zkv" put l.img 4711 - 2> err
status=$?
hold "false | zkv put ends with 2, not $status" [ "$status" -eq 2 ]
says 'standard input: gave 0 bytes'
ends 0 get l.img 4711
prints 'A+ 450 ml'
: > nothing
ends 2 put l.img 4711 nothing
says 'nothing: gave 0 bytes'
ends 0 put l.img 4711 nothing --empty
ends 0 get l.img 4711
prints ''
ends 2 put l.img 4711 disk
says 'disk: cannot be read'

# 8. Through a symbolic link: the folder that is synced is that of the file, and the link stays.
mkdir -p away
ln -s away/real.img link.img
if command -v strace > /dev/null; then
    timeout 20 strace -f -e trace=openat,rename,renameat2,fsync -o trace "$zkv" format link.img 4 2> err
    hold "the folder of the link's target is synced: $(tail -n 3 trace)" grep -Eq 'openat\(AT_FDCWD, "(\./)?away".*O_DIRECTORY' trace
else
    echo "zkv: not tried, as there is no strace here: which folder is synced"
    ends 0 format link.img 4
fi
hold "the register is where the link says" [ -f away/real.img ]
hold "the link is still one" [ -L link.img ]
ends 0 put link.img 5 value
ends 0 get away/real.img 5
ends 0 format link.img 5 --force
hold "the link is still one after --force" [ -L link.img ]
hold "the file behind it has the new length" [ "$(stat -c %s away/real.img)" -eq 20480 ]

# 9. A file that may not grow.
rm -f big.img
( ulimit -f 8; exec "$zkv" format big.img 64 2> err )
status=$?
hold "a format over the limit of a file's length ends with 2, not $status" [ "$status" -eq 2 ]
says 'big.img: cannot get its 262144 bytes'
hold "and leaves nothing: $(ls -A)" [ -z "$(ls -A | grep big)" ]

# 10. Modes and locks.
fresh
hold "a register is its owner's alone, mode $(stat -c %a l.img)" [ "$(stat -c %a l.img)" = 600 ]
chmod 640 l.img
ends 0 format l.img 16 --force
hold "a format of a file that exists leaves its mode, not $(stat -c %a l.img)" [ "$(stat -c %a l.img)" = 640 ]
flock l.img sleep 3 &
sleep 0.2
ends 2 put l.img 5 value --wait 0
says 'l.img: is locked by another program; waited 0 s'
ends 2 sheet l.img --wait 0
says 'l.img: is locked by another program; waited 0 s'
prints ''
ends 2 put l.img 5 value --wait 1
says 'waited 1 s'
wait
flock l.img sleep 2.6 &
sleep 0.2
ends 0 put l.img 5 value --wait 9
says 'l.img: is locked by another program; waiting'
wait
ends 0 put l.img 5 value
hold "nothing is said of a lock that is free: $(cat err)" [ ! -s err ]
flock -s l.img sleep 2.5 &
sleep 0.2
ends 0 get l.img 5 --wait 0
ends 2 put l.img 5 value --wait 0
wait

# A reader whose output nobody takes: the pipe is full, and a put beside it has the lock.
fresh
mkfifo pipe
exec 7<> pipe
dd if=/dev/zero of=pipe bs=4096 oflag=nonblock 2> /dev/null
for command in 'get l.img 4711' 'list l.img' 'list l.img --json' 'sheet l.img' 'dump l.img' 'digest l.img' 'scan l.img 4711 value' 'stat l.img' \
    'info l.img' 'info l.img --svg -' 'history l.img 4711' 'check l.img' 'check l.img --json' 'get l.img 4711 --version' 'get l.img 77 --version'; do
    "$zkv" $command > pipe 2> /dev/null &
    reader=$!
    sleep 0.2
    ends 0 put l.img 5 value --wait 1
    hold "zkv $command still waits for its reader" kill -0 "$reader"
    kill "$reader"
    wait "$reader" 2> /dev/null
done
exec 7>&-
rm pipe

# 11. Statuses and messages.
fresh
ends 1 get l.img 77
says 'zkv: l.img: key 77: refused 11: the key is absent'
ends 1 delete l.img 77
says 'zkv: l.img: key 77: refused 11'
head -c 4089 /dev/urandom > long
ends 3 put l.img 77 long
says 'zkv: l.img: key 77: 4089 bytes: refused 9: the value is too long (at most 4088 bytes)'
head -c 70000 /dev/urandom > longer
ends 3 put l.img 77 longer
says 'key 77: 65537 bytes or more: refused 9'
ends 2 get nofile 77
says 'zkv: nofile: cannot be opened: No such file'
ends 2 sheet nofile
says 'zkv: nofile: cannot be opened: No such file'
ends 2 put l.img 77 nofile
says 'zkv: nofile: No such file'
printf '\1' | dd of=l.img bs=1 seek=65 conv=notrunc 2> /dev/null
for command in 'get l.img 4711' 'put l.img 5 value' 'delete l.img 4711' 'stat l.img' 'scan l.img 4711 value' 'sheet l.img' \
    'get l.img 4711 --version' 'put l.img 5 value --if-version 0' 'delete l.img 4711 --if-version 1'; do
    ends 3 $command
    says 'zkv: l.img: 65536 bytes: refused 3: a directory word is wrong'
    prints ''
done
ends 3 check l.img
prints 'refused 3: a directory word is wrong
at the directory word of chunk 0: byte 64'
ends 3 format x.img 3
says 'zkv: x.img: 3 chunks: refused 1'
ends 3 check letter
prints "refused 1: the image's length is not 4 to 504 chunks of 4,096 or 65,536 bytes, or a lent length is unlike that at the opening
the file has 8 bytes"
ends 3 get letter 1
says 'zkv: letter: 8 bytes: refused 1'
ends 3 sheet letter
says 'zkv: letter: 8 bytes: refused 1'
rm -f small.img
"$zkv" format small.img 4
status=0
for key in $(seq 200); do
    "$zkv" put small.img "$key" value 2> err || { status=$?; break; }
done
hold "a full register ends with 3, not $status" [ "$status" -eq 3 ]
says 'refused 13'
ends 0 get small.img 1

# Scans.
fresh
ends 0 scan l.img 4711 value
prints 'match: key 4711, 9 bytes'
ends 1 scan l.img 77 value
says 'key 77: refused 11'
printf 'A+ 450 mL' > scan
ends 4 scan l.img 4711 scan
prints 'PUT ASIDE: key 4711: byte 9: the label has 0x6c, the scan 0x4c'
printf 'A+ 450 ml\n' > scan
ends 4 scan l.img 4711 scan
prints 'PUT ASIDE: key 4711: byte 10: the label ends after 9 bytes, the scan has 10'
printf 'A+ 450' > scan
input=scan ends 4 scan l.img 4711 -
prints 'PUT ASIDE: key 4711: byte 7: the scan ends after 6 bytes, the label has 9'
ends 2 scan l.img 4711 nothing
says 'nothing: gave 0 bytes'
ends 4 scan l.img 4711 nothing --empty
ends 0 put l.img 8 nothing --empty
ends 0 scan l.img 8 nothing --empty
ends 2 scan l.img 8 nothing
# A scanner that ends what it read like a line: one end is passed over, if that is said, and no more.
for end in '\n' '\r' '\r\n' ''; do
    printf "A+ 450 ml$end" > scan
    ends 0 scan l.img 4711 scan --line
    prints 'match: key 4711, 9 bytes'
done
for end in '\n\n' '\n\r' '\r\r' ' \n'; do
    printf "A+ 450 ml$end" > scan
    ends 4 scan l.img 4711 scan --line
done
printf '\r\n' > scan
ends 2 scan l.img 8 scan --line
says 'scan: gave 0 bytes and the end of a line; if that is meant, say --empty'
ends 0 scan l.img 8 scan --line --empty

# Lists: rising keys, no deleted ones, values that are printable, the greatest key.
fresh
ends 0 list l.img
prints $'keys 1\n4711 1 9 L A+ 450 ml'
printf 'A\033[2J' > value
ends 0 put l.img 18446744073709551615 value
ends 0 put l.img 0 nothing --empty
printf ' b ' > value
ends 0 put l.img 900 value
ends 0 put l.img 12 value
ends 0 delete l.img 900
ends 0 list l.img
prints $'keys 4\n0 1 0 L\n12 1 3 L  b \n4711 1 9 L A+ 450 ml\n18446744073709551615 1 5 L'
ends 0 stat l.img
hold "stat counts 4 labels and 5 known keys: $(cat out)" grep -qx 'labels 4' out
hold "stat counts 5 known keys: $(cat out)" grep -qx 'known keys 5' out
ends 3 list letter
ends 2 list fifo
rm -f many.img
"$zkv" format many.img 40
for key in $(seq 300 -3 3); do
    printf 'label %d' "$key" | "$zkv" put many.img "$key" -
done
ends 0 list many.img
hold "a hundred labels are listed by rising key" cmp -s out <(echo keys 100; for key in $(seq 3 3 300); do
    printf '%d 1 %d L label %d\n' "$key" "$((6 + ${#key}))" "$key"; done)
head -c 1000 /dev/zero | tr '\0' x > large
ends 0 put l.img 5 large
ends 0 list l.img
hold "a large value is listed as in a block: $(sed -n 3p out | cut -c 1-20)" grep -qx "5 1 1000 B $(cat large)" out
ends 0 get l.img 5
hold 'a large value comes back to the byte' cmp -s out large

# Sheets: what is listed beside a value, in columns, 50 labels to a page; a form feed between pages and none at the end.
ends 0 sheet l.img
prints '                 KEY VERSION BYTES P
                   0       1     0 L
                   5       1  1000 B
                  12       1     3 L
                4711       1     9 L
18446744073709551615       1     5 L'
rm -f none.img
ends 0 format none.img 4
ends 0 sheet none.img
prints '                 KEY VERSION BYTES P'
# paged: the sheet of the keys that standard input has, each with a label of many.img.
paged() {
    awk '(NR - 1) % 50 == 0 { printf "%s                 KEY VERSION BYTES P\n", (NR > 1 ? "\f" : "") }
        { printf "%20d       1 %5d L\n", $1, 6 + length($1) }'
}
ends 0 sheet many.img
hold "a hundred labels have two pages" cmp -s out <(seq 3 3 300 | paged)
hold "a hundred labels have one form feed" [ "$(tr -dc '\f' < out | wc -c)" -eq 1 ]
printf 'label 303' | "$zkv" put many.img 303 -
ends 0 sheet many.img
hold "one more has a page of its own" cmp -s out <(seq 3 3 303 | paged)
ends 0 delete many.img 303
ends 0 sheet many.img
hold "deleted again, it has none" cmp -s out <(seq 3 3 300 | paged)
ends 0 delete many.img 3
ends 0 sheet many.img
hold "without the first, all others move up" cmp -s out <(seq 6 3 300 | paged)

# JSON, digests, and checks against them.
fresh
printf 'A"\\' > value
ends 0 put l.img 18446744073709551615 value
ends 0 put l.img 5 nothing --empty
ends 0 list l.img --json
prints '{"keys":3,"labels":[
{"key":"5","version":1,"bytes":0,"place":"log","hex":""},
{"key":"4711","version":1,"bytes":9,"place":"log","hex":"412b20343530206d6c","text":"A+ 450 ml"},
{"key":"18446744073709551615","version":1,"bytes":3,"place":"log","hex":"41225c","text":"A\"\\"}
]}'
ends 0 delete l.img 5
ends 0 stat l.img --json
prints '{"chunks":16,"chunk_bytes":4096,"labels":2,"deleted_keys":1,"known_keys":3,"free_chunks":14,"lines_used":4,"lines_left":828,"labels_of_16_left":828,'\
'"labels_of_64_left":414,"labels_of_256_left":156,"labels_of_1000_left":48,"labels_of_4088_left":12,"labels_of_65528_left":null,"station":"7",'\
'"centre":null}'
ends 0 stat l.img
prints 'chunks 16
bytes of a chunk 4096
labels 2
deleted keys 1
known keys 3
free chunks 14
lines used 4
lines left 828
labels of 16 bytes left 828
labels of 64 bytes left 414
labels of 256 bytes left 156
labels of 1000 bytes left 48
labels of 4088 bytes left 12
station 7'
ends 0 check l.img --json
prints '{"accepted":true}'
ends 0 digest l.img
# The two labels in the form that the manual page states.
sum=$({ printf '\147\022\0\0\0\0\0\0\011\0\0\0\0\0\0\0A+ 450 ml'
    printf '\377\377\377\377\377\377\377\377\003\0\0\0\0\0\0\0A"\\'; } | sha256sum | cut -c 1-64)
prints "$sum"
ends 0 check l.img --against "$sum"
prints $'accepted\ndigest as given'
ends 0 check l.img --against "$sum" --json
prints '{"accepted":true,"digest":"'"$sum"'","same":true}'
other=$(printf x | sha256sum | cut -c 1-64)
ends 4 check l.img --against "$other"
prints $'accepted\nPUT ASIDE: the digest is '"$sum, and not as given"
ends 4 check l.img --against "$other" --json
prints '{"accepted":true,"digest":"'"$sum"'","same":false}'
ends 3 check letter --json
prints '{"accepted":false,"refusal":1,"sentence":"the image'\''s length is not 4 to 504 chunks of 4,096 or 65,536 bytes, or a lent length is unlike that at the opening","bytes":8}'
ends 3 check letter --against "$sum"
ends 2 check l.img --against "${sum}0"
says 'zkv: check: --against needs a digest: 64 hexadecimal digits'
ends 0 put l.img 4711 nothing --empty
ends 4 check l.img --against "$sum"
rm -f none.img
ends 0 format none.img 4
ends 0 digest none.img
prints "$(sha256sum < /dev/null | cut -c 1-64)"
ends 0 list none.img --json
prints $'{"keys":0,"labels":[\n]}'
ends 0 dump none.img
prints ''

# What a register holds, as the manual page says, is what stat says of an empty one.
rows=0
while read -r chunks bytes of_48 of_256 of_1000 of_4088; do
    rm -f none.img
    ends 0 format none.img "$chunks"
    hold "$chunks chunks are $bytes bytes" [ "$(stat -c %s none.img)" -eq "$bytes" ]
    ends 0 stat none.img
    hold "$chunks chunks hold $of_48, $of_256, $of_1000 and $of_4088 labels, not '$(grep left out)'" [ "$(grep left out | sed 's/.* //' | tr '\n' ' ')" = \
        "$of_48 $of_48 $((of_48 / 2)) $of_256 $of_1000 $of_4088 " ]
    rows=$((rows + 1))
done < <(sed -n '/^chunks  *bytes/,/^\.fi/p' "$host/zkv.1" | sed '1d;$d;s/,//g')
hold "the manual page says what a register holds" [ "$rows" -ge 3 ]

# Lists that are wrong change nothing, and the message says the line; standard output that is full or closed.
fresh
cp l.img before
while IFS='|' read -r list status message; do
    printf -- "$list" > list
    ends "$status" load l.img list
    says "$message"
    untouched l.img before
done <<'END'
5\tA+\n6\tB-|2|zkv: list: line 2: has no end: the list was cut
5|2|zkv: list: line 1: has no end: the list was cut
5\tA+\n\n|2|zkv: list: line 2: has no tab
5 A+\n|2|zkv: list: line 1: has no tab
x\tA+\n|2|zkv: list: line 1: does not begin with a key
\tA+\n|2|zkv: list: line 1: does not begin with a key
 5\tA+\n|2|zkv: list: line 1: does not begin with a key
-5\tA+\n|2|zkv: list: line 1: does not begin with a key
5\0006\tA+\n|2|zkv: list: line 1: does not begin with a key
18446744073709551616\tA+\n|2|zkv: list: line 1: does not begin with a key
5\tA+\r\n|2|zkv: list: line 1: key 5: a byte 0x0d: lines end with a line feed alone
5\tA\tB\n|2|zkv: list: line 1: key 5: a byte that is not printable ASCII
5\tA\0B\n|2|zkv: list: line 1: key 5: a byte that is not printable ASCII
5\tA\377\n|2|zkv: list: line 1: key 5: a byte that is not printable ASCII
5\tA\\n\n|2|zkv: list: line 1: key 5: a backslash is followed by
5\tA\\\n|2|zkv: list: line 1: key 5: a backslash is followed by
5\tA\\x\n|2|zkv: list: line 1: key 5: a backslash is followed by
5\tA\\x4\n|2|zkv: list: line 1: key 5: a backslash is followed by
5\tA\\x4g\n|2|zkv: list: line 1: key 5: a backslash is followed by
5\tA+\n6\tA+\n05\tB-\n|2|zkv: list: line 3: key 5 stands in line 1 already
|2|zkv: list: gave 0 bytes; if that is meant, say --empty
END
{ printf '6\tB-\n5\t'; head -c 4089 /dev/zero | tr '\0' x; echo; } > list
ends 3 load l.img list
says 'zkv: list: line 2: key 5: 4089 bytes: refused 9: the value is too long (at most 4088 bytes)'
untouched l.img before
ends 2 load l.img nofile
says 'zkv: nofile: No such file'
ends 2 load l.img disk
says 'zkv: disk: cannot be read'
ends 2 load l.img /dev/zero
says 'zkv: /dev/zero: has 134217728 bytes or more: no register can hold the labels of so long a list'
untouched l.img before
: > list
ends 0 load l.img list --empty
prints $'labels 0\nbatches 0'
untouched l.img before
printf '5\tA\\\\\\x5C\n4711\t\n' > list
input=list ends 0 load l.img -
prints $'labels 2\nbatches 1'
ends 0 get l.img 5
prints 'A\\'
ends 0 dump l.img
prints $'5\tA\\\\\\\\\n4711\t'
for command in 'dump l.img' 'digest l.img' 'list l.img --json' 'sheet l.img' 'stat l.img --json'; do
    status=0
    "$zkv" $command > /dev/full 2> err || status=$?
    hold "zkv $command on a full device ends with 2, not $status" [ "$status" -eq 2 ]
    says 'standard output'
done
rm -f wide.img
ends 0 format wide.img 100
for key in $(seq 20); do printf '%d\t%04000d\n' "$key" "$key"; done > list
ends 0 load wide.img list
prints $'labels 20\nbatches 2'
status=$( (trap '' PIPE; "$zkv" dump wide.img 2> err; echo $? > status) | true; cat status)
hold "a dump into a closed pipe ends with 2, not $status" [ "$status" -eq 2 ]
says 'standard output: Broken pipe'
rm -f pages.img
ends 0 format pages.img 40
seq 3000 | sed 's/$/\tx/' > list                # a sheet longer than what a pipe holds
ends 0 load pages.img list
status=$( (trap '' PIPE; "$zkv" sheet pages.img 2> err; echo $? > status) | head -n 1 > first; cat status)
hold "a sheet into a pipe that is closed behind its first line ends with 2, not $status" [ "$status" -eq 2 ]
says 'standard output: Broken pipe'
hold "the first line is the heading: $(cat first)" [ "$(cat first)" = '                 KEY VERSION BYTES P' ]
# Memory that runs out: a text is printed whole or not at all. The limits go up to one that is enough.
rm -f pages.img
ends 0 format pages.img 504
seq 60000 | sed 's/$/\t\\x01\\x02\\x03\\x04\\x05\\x06\\x07\\x08/' > list
ends 0 load pages.img list
for command in 'sheet pages.img' 'list pages.img --json' 'dump pages.img'; do
    "$zkv" $command > whole
    short=0 status=
    for limit in $(seq 6000 600 60000); do
        status=0
        ( ulimit -v "$limit"; exec "$zkv" $command > out 2> err ) 2> /dev/null || status=$?
        [ "$status" -ne 0 ] || break
        hold "zkv $command with $limit KB of memory prints nothing" [ ! -s out ]
        ! grep -q 'pages.img: no memory for the text' err || short=1
    done
    hold "zkv $command ends with 0 only where all is printed" cmp -s out whole
    hold "zkv $command with little memory says so" [ "$status$short" -eq 01 ]
done
chmod 400 l.img
cp l.img before
for command in 'dump l.img' 'digest l.img' 'copy l.img read.img' 'list l.img --json' 'sheet l.img'; do
    ends 0 $command
done
untouched l.img before
chmod 600 l.img

# Loads into a file that is exchanged or cut meanwhile.
printf '5\tB-\n' > list
for how in exchange cut; do
    fresh
    cp l.img new.img
    "$zkv" load l.img list --pause 100000 > out 2> err &
    load=$!
    until_locked l.img
    sleep 0.3
    [ $how = exchange ] && mv new.img l.img || truncate -s 32768 l.img
    wait "$load"
    status=$?
    hold "a load into a file that is exchanged or cut meanwhile ends with 2, not $status" [ "$status" -eq 2 ]
    says 'was '
    prints ''
done

# A disk that breaks in the middle: a sync fails, and what is not known to last is not said to.
if command -v gcc > /dev/null && gcc -O2 -shared -fPIC -o failing.so "$tests/failing_sync.c"; then
    # fails SYNCS COMMAND...
    fails() {
        local syncs=$1 status=0
        shift
        SYNCS=$syncs LD_PRELOAD="${LD_PRELOAD:+$LD_PRELOAD }$work/failing.so" timeout 20 "$zkv" "$@" > out 2> err < /dev/null || status=$?
        hold "zkv $* ends with 2 where a sync fails, not $status" [ "$status" -eq 2 ]
        says 'cannot be made durable: Input/output error'
        prints ''
    }
    for key in $(seq 40); do printf '%d\tlabel %d\n' "$key" "$key"; done > list
    for syncs in 0 1 2 3 4 5; do                # two of each batch
        fresh
        fails $syncs load l.img list
        in=$((syncs / 2 * 16)) next=$((syncs < 4 ? 16 : 8))
        if [ $in -eq 0 ]; then
            says "zkv: l.img: list: in the register: of lines 1 to $next all or none"
        else
            says "zkv: l.img: list: in the register: lines 1 to $in, and of lines $((in + 1)) to $((in + next)) all or none"
        fi
        ends 0 dump l.img
        found=$(grep -c label out)
        hold "after $syncs syncs $found labels are there" [ "$found" -eq $in -o "$found" -eq $((in + next)) ]
    done
    fresh
    fails 1 put l.img 5 value
    "$host/build/cut_clean" cut.img             # no chunk is free: one is freed before the put
    fails 0 put cut.img 5 value
    ends 0 get cut.img 5
    prints "$(printf 'print %-42d' 5)"
    ends 0 put cut.img 5 value
    ends 0 get cut.img 5
    prints "$(cat value)"
    rm -f d.img
    fails 0 copy l.img d.img
    hold "nothing is left of a copy that could not be synced: $(ls -A)" [ -z "$(ls -A | grep -e '^d.img' -e new-)" ]
else
    echo "zkv: not tried, as there is no gcc here: a disk that breaks"
fi

# Copies: never over a file, nothing left of one that fails.
fresh
cp l.img before
cp value c.img
ends 2 copy l.img c.img
says 'zkv: c.img: exists, and is left as it is'
untouched c.img value
ends 2 copy l.img l.img
says 'zkv: l.img: exists'
ends 2 copy l.img fifo
says 'zkv: fifo: exists'
ends 2 copy l.img nowhere/c.img
says 'zkv: nowhere/c.img: no file can be made beside it'
ends 2 copy nofile d.img
says 'zkv: nofile: cannot be opened'
ends 3 copy letter d.img
says 'zkv: letter: 8 bytes: refused 1'
ends 2 copy l.img d.img 1x
says 'zkv: d.img: 1x is no number of chunks'
ends 3 copy l.img d.img 505
says 'zkv: d.img: 505 chunks: refused 1'
ends 3 copy wide.img d.img 9
says 'zkv: d.img: 9 chunks, after '
says ' of 20 labels: refused 13: there is no space left in the image'
untouched l.img before
ln -s away/copied.img to.img
ends 0 copy l.img to.img 4
hold "a copy through a link is where the link says" [ -f away/copied.img ]
hold "the link is still one" [ -L to.img ]
hold "a copy is its owner's alone, mode $(stat -c %a away/copied.img)" [ "$(stat -c %a away/copied.img)" = 600 ]
ends 0 stat to.img
hold "the copy has 4 chunks and the station: $(cat out)" [ "$(sed -n '1p;$p' out | tr '\n' ' ')" = 'chunks 4 station 7 ' ]
( ulimit -f 8; exec "$zkv" copy l.img d.img 2> err )
status=$?
hold "a copy over the limit of a file's length ends with 2, not $status" [ "$status" -eq 2 ]
says 'd.img: cannot get its 65536 bytes'
# While it runs: the new name is taken by another, the old file is cut, it is killed.
"$zkv" copy l.img d.img --pause 2000 2> err &
copy=$!
until_locked l.img
sleep 0.2
cp value d.img
wait "$copy"
status=$?
hold "a copy to a name that was taken meanwhile ends with 2, not $status" [ "$status" -eq 2 ]
says 'd.img: has been made by another program meanwhile; it is left as it is'
untouched d.img value
rm d.img
"$zkv" copy l.img d.img --pause 2000 2> err &
copy=$!
until_locked l.img
sleep 0.2
truncate -s 0 l.img
wait "$copy" 2> /dev/null
status=$?
hold "a copy of a file that is cut to nothing ends with 2, not $status" [ "$status" -eq 2 ]
says 'the system has no page'
fresh
"$zkv" copy l.img d.img --pause 2000 2> err &
copy=$!
until_locked l.img
sleep 0.2
truncate -s 61440 l.img
wait "$copy" 2> /dev/null
status=$?
hold "a copy of a file that is cut meanwhile ends with 2, not $status" [ "$status" -eq 2 ]
says 'l.img: was 65536 bytes long and is 61440 now'
hold "nothing is left of the copies that failed: $(ls -A)" [ -z "$(ls -A | grep -e '^d.img' -e new-)" ]
fresh
"$zkv" copy l.img d.img --pause 2000 2> err &
copy=$!
until_locked l.img
sleep 0.2
kill -9 "$copy"
wait "$copy" 2> /dev/null
hold "a killed copy leaves no file under the name" [ ! -e d.img ]
rm -f d.img.new-*
if command -v script > /dev/null; then      # a terminal is told how far it is, a pipe is not
    ends 0 copy wide.img far.img
    hold "without a terminal no progress is told: $(cat err)" [ ! -s err ]
    script -qec "$zkv copy wide.img farther.img" /dev/null > terminal < /dev/null
    hold "a terminal is told how far it is: $(cat terminal)" grep -q 'zkv: farther.img: 20 of 20 labels' terminal
fi

# Inside: what each chunk holds, the entries of a key, and where a fault is.
rm -f i.img p.svg
"$zkv" format i.img 6 --station 7
for v in one two three; do printf %s "$v" | "$zkv" put i.img 1 -; done
printf x | "$zkv" put i.img 2 -
"$zkv" delete i.img 2
head -c 1000 /dev/zero | tr '\0' a > large
"$zkv" put i.img 3 large
head -c 999 large | "$zkv" put i.img 3 -
cp i.img before
ends 0 info i.img --svg p.svg
prints '6 chunks of 4096 bytes
   chunk  role  lines  live  superseded  deletes  blocks  bytes  used
       1  log       7     2           4        1       0      0     0
       2  data      0     0           0        0       4   1024     1
    3..5  free'
hold "the picture has a box for each chunk" [ "$(grep -c '<title>chunk' p.svg)" -eq 6 ]
hold "the picture is XML" python3 -c 'import xml.etree.ElementTree as t; t.parse("p.svg")'
for meaning in live superseded deletes 'blocks used' 'blocks free' free 'chunk 0: header and directory'; do
    hold "the picture says the colour of $meaning" grep -qF ">$meaning</text>" p.svg
done
ends 0 info i.img --svg -
hold "a picture on standard output is the same, and nothing else" cmp -s out p.svg
cp p.svg drawn
for out in p.svg i.img fifo; do
    ends 2 info i.img --svg "$out"
    says "zkv: $out: File exists"
done
untouched p.svg drawn
ends 2 info i.img --svg nowhere/p.svg
ends 2 info i.img --svg
ends 2 info i.img --json
if [ -w /dev/full ]; then
    ln -s /dev/full full.svg
    ends 2 info i.img --svg full.svg
fi
ends 0 history i.img 1
prints 'entries 3
1 put chunk 1 line 0 superseded 3 bytes one
2 put chunk 1 line 1 superseded 3 bytes two
3 put chunk 1 line 2 current 5 bytes three'
ends 0 history i.img 2
prints 'entries 2
1 put chunk 1 line 3 superseded 1 bytes x
2 delete chunk 1 line 4 current'
ends 0 history i.img 3
hold "a superseded value in a block is not told: $(cut -c 1-90 out)" [ "$(sed -n 2p out)" = '1 put chunk 1 line 5 superseded in a block that may hold another value now' ]
hold "the value that counts is: $(cut -c 1-90 out)" [ "$(sed -n 3p out | cut -c 1-45)" = '2 put chunk 1 line 6 current 999 bytes aaaaaa' ]
ends 1 history i.img 9
says 'zkv: i.img: key 9: refused 11: the key is absent'
ends 2 history i.img x
ends 3 history letter 1
untouched i.img before
# fault BYTE OCTAL PLACE: a byte of the file changed, and what check says behind the refusal.
fault() {
    cp before d.img
    printf "\\$2" | dd of=d.img bs=1 seek="$1" conv=notrunc status=none
    ends 3 check d.img
    hold "byte $1 is $2: '$3', not '$(sed -n 2p out)'" [ "$(sed -n 2p out)" = "$3" ]
}
fault 0 002 'at the header: word 0, byte 0'
fault 8 007 'at the header: word 1, byte 8'
fault 40 001 'at the header: word 5, byte 40'
fault 16 010 'at the header: word 7, byte 56'
fault 96 005 'at the directory word of chunk 4: byte 96'
fault 2464 001 'at the directory word of chunk 300: byte 2464'
fault 4160 003 'at chunk 1, line 1, byte 4160; 1 entries before it are right'
ends 3 check d.img --json
prints '{"accepted":false,"refusal":4,"sentence":"an entry of the log is wrong","chunk":1,"line":1,"byte":4160,"entries_before":1}'
fault 4368 077 'at chunk 1, line 4, byte 4368; 5 entries before it are right'
fault 9217 020 'at the entry in chunk 1, line 6, byte 4480; every entry can be read'
fault 4160 061 'at the entry in chunk 1, line 2, byte 4224; every entry can be read'
ends 3 check d.img --json
prints '{"accepted":false,"refusal":6,"sentence":"the newest entries of a key are not equal in every word, or two keys share a block","chunk":1,"line":2,"byte":4224}'
cp before i.img
ends 0 delete i.img 3
ends 0 clean i.img
ends 0 info i.img
hold "a data chunk without a label becomes free: $(cat out)" [ -z "$(grep data out)" ]
ends 0 history i.img 1
prints 'entries 1
3 put chunk '"$(awk '/^3 put/ { print $4 }' out)"' line 0 current 5 bytes three'

# 12. A version in hand.
# has STATUS KEY VERSION FILE: get --version prints a line with the version, then the file's bytes; must end with the
# status.
has() {
    ends "$1" get "${image:-l.img}" "$2" --version
    hold "key $2 has version $3 and the bytes of $4, not '$(head -c 100 out | tr -c ' -~' .)'" cmp -s out <(echo "$3"; cat "$4")
}
fresh
: > nothing
printf 'A\n\n\0\377\r\n' > binary
head -c 4088 /dev/urandom > large
has 0 4711 1 value
has 1 77 0 nothing
says 'zkv: l.img: key 77: refused 11: the key is absent'
for label in binary large nothing value; do
    ends 0 put l.img 5 "$label" --empty
done
has 0 5 4 value
ends 0 put l.img 6 binary
has 0 6 1 binary
ends 0 put l.img 6 large
has 0 6 2 large
ends 0 put l.img 6 nothing --empty
has 0 6 3 nothing
ends 0 delete l.img 6
has 1 6 4 nothing
says 'zkv: l.img: key 6: refused 11: the key is absent'
ends 0 get l.img 5
hold "without --version the bytes come alone" cmp -s out value
cp l.img before
ends 0 get --version l.img 5                    # an option may stand anywhere behind the command
hold "a get changes nothing" cmp -s l.img before

# Every version but the one that stands is refused, and nothing changes: of present, deleted and unknown keys.
for key_version in '5 4' '6 4' '77 0'; do
    read -r key stands <<< "$key_version"
    for version in 0 1 2 3 4 5 1048575 1048576 4294967300 18446744073709551615; do
        [ "$version" != "$stands" ] || continue
        for label in value large; do
            ends 5 put l.img "$key" "$label" --if-version "$version"
            says "zkv: l.img: key $key: version $version is named, and $stands stands: refused 17: the key's version is not the one named"
        done
        ends $((key == 5 ? 5 : 1)) delete l.img "$key" --if-version "$version"
        [ "$key" -ne 5 ] || says "zkv: l.img: key 5: version $version is named, and 4 stands: refused 17: the key's version is not the one named"
        [ "$key" -eq 5 ] || says "zkv: l.img: key $key: refused 11: the key is absent"
    done
done
ends 3 put l.img 5 long --if-version 1          # too long comes before the version
says 'zkv: l.img: key 5: 4089 bytes: refused 9'
untouched l.img before
ends 0 put l.img 5 binary --if-version 4
has 0 5 5 binary
ends 0 put l.img 5 large --if-version 5 --no-clean
has 0 5 6 large
ends 0 put l.img 6 value --if-version 4
has 0 6 5 value
ends 0 put l.img 77 nothing --empty --if-version 0
has 0 77 1 nothing
ends 0 delete l.img 77 --if-version 1 --no-clean
has 1 77 2 nothing
ends 1 delete l.img 77 --if-version 2
ends 0 delete l.img 5 --if-version 006
has 1 5 7 nothing
ends 0 clean l.img
has 1 5 0 nothing
has 0 6 5 value
ends 0 put l.img 5 value --if-version 0
has 0 5 1 value

# Numbers that are none, and places where the options have no meaning.
cp l.img before
for version in -1 18446744073709551616 '' x 1x ' 1' +1 0x1 1.0; do
    for command in 'put l.img 5 value' 'delete l.img 5'; do
        ends 2 $command --if-version "$version"
        says "zkv: ${command%% *}: --if-version needs a version: decimal, below 2^64: $version"
        says "usage: zkv ${command%% *} FILE KEY"
    done
done
for command in 'put l.img 5 value --if-version' 'delete l.img 5 --if-version' 'get l.img 5 --if-version 1' 'scan l.img 5 value --if-version 1' \
    'load l.img list --if-version 1' 'clean l.img --if-version 1' 'format l.img 4 --if-version 1' 'put l.img 5 value --version' \
    'delete l.img 5 --version' 'scan l.img 5 value --version' 'list l.img --version' 'get l.img --version' 'get --version' '--version get l.img 5'; do
    ends 2 $command
    hold "zkv $command shows how it is used" grep -q '^usage: zkv' err
    prints ''
done
ends 2 get l.img 5 --if-version 1
says 'zkv: get: it has no such option: --if-version'
untouched l.img before
ends 0 --version
hold "--version alone is the program's: $(cat out)" grep -qx 'zkv [0-9.]*' out
ends 0 help
hold "the usage tells status 5: $(tail -n 1 out)" grep -q '^ *5 another version' out
# section HEADING: the lines of the manual page from the heading on, up to the next one.
section() { awk -v heading=".SH $1" '/^\.SH / { inside = $0 == heading } inside' "$host/zkv.1"; }
hold "the manual page has status 5" grep -qx '\.B 5' <(section 'EXIT STATUS')
hold "the manual page has number 17" grep -qx '\.B 17' <(section NUMBERS)

# Two windows look the same label up. The one that puts first wins; the other is told, looks again, and wins.
fresh
ends 0 get l.img 4711 --version
first=$(head -n 1 out) second=$(head -n 1 out)
printf 'B- 450 ml' > theirs
printf 'O+ 450 ml' > ours
ends 0 put l.img 4711 theirs --if-version "$first"
ends 5 put l.img 4711 ours --if-version "$second"
says 'zkv: l.img: key 4711: version 1 is named, and 2 stands: refused 17'
has 0 4711 2 theirs
"$zkv" get l.img 4711 --version | { read -r version; cat > label; printf '\n' >> label; exec "$zkv" put l.img 4711 label --if-version "$version"; }
hold "the put behind a look-up ends with 0" [ "${PIPESTATUS[1]}" -eq 0 ]
has 0 4711 3 <(cat theirs; echo)
# The version that counts is the one that stands when the lock is got.
"$zkv" put l.img 4711 theirs --if-version 3 --pause 40000 &
put=$!
until_locked l.img
ends 5 put l.img 4711 ours --if-version 3
says 'version 3 is named, and 4 stands'
wait "$put"
status=$?
hold "the put that had the lock ends with 0, not $status" [ "$status" -eq 0 ]
has 0 4711 4 theirs
# Many at once: each appends its letter to the label, again and again; no letter is lost, and each put has its version.
# append LETTER TIMES: an absent key, which get ends with 1 for, has an empty label; else a loop ends where get fails.
append() {
    local n tries=0 version status
    for n in $(seq "$2"); do
        status=5
        while [ "$status" -eq 5 ] && [ "$tries" -lt 1000 ]; do
            status=0 tries=$((tries + 1))
            "$zkv" get l.img 9 --version > "found.$1" 2> /dev/null || status=$?
            [ "$status" -le 1 ] || return "$status"
            { read -r version && cat > "label.$1"; } < "found.$1" && printf %s "$1" >> "label.$1" || return
            status=0
            "$zkv" put l.img 9 "label.$1" --if-version "$version" 2> /dev/null || status=$?
        done
        [ "$status" -eq 0 ] || return "$status"
    done
}
jobs=
for letter in a b c d; do
    append "$letter" 10 &
    jobs="$jobs $!"
done
for job in $jobs; do
    wait "$job"
    status=$?
    hold "a loop ends with 0, not $status" [ "$status" -eq 0 ]
done
ends 0 get l.img 9 --version
hold "40 letters were put, one at a time: $(head -c 100 out | tr '\n' ' ')" [ "$(head -n 1 out)" = 40 ]
hold "no letter is lost: $(sed 1d out)" [ "$(sed 1d out | fold -w 1 | sort | uniq -c | tr -d ' \n')" = 10a10b10c10d ]

# The loop of the manual page, as it stands there. Before its first put another window does what the file other says.
sed -n '/^status=5$/,/^done$/p' "$host/zkv.1" | sed 's/\\-/-/g' > loop
mkdir bin
printf '%s\n' '#!/bin/sh' '[ "$1" != put ] || ! mv other meanwhile 2> /dev/null || . ./meanwhile' 'exec $ZKV "$@"' > bin/zkv
chmod 700 bin/zkv
# plays BEFORE: runs the loop in a shell that has done BEFORE; its status to status.
plays() {
    status=0
    ZKV=$zkv PATH=$work/bin:$PATH timeout 20 sh -c "$1"'
        . ./loop; exit $status' > out 2> err || status=$?
}
rm -f labels.img
ends 0 format labels.img 16
ends 0 put labels.img 4711 value
echo 'printf theirs | $ZKV put labels.img 4711 -' > other
plays ''
hold "the manual page's loop ends with 0, not $status" [ "$status" -eq 0 ]
says 'version 1 is named, and 2 stands'
image=labels.img has 0 4711 3 <(printf 'theirs, checked')
# Where get does not end with 0 the loop ends, and nothing is put: of a key that was deleted meanwhile, or before, or
# never put, and of a label that is not written as a whole; likewise where a command between get and put fails.
echo '$ZKV delete labels.img 4711' > other
plays ''
hold "the loop ends with 1 where the label was deleted meanwhile, not $status" [ "$status" -eq 1 ]
says 'version 3 is named, and 4 stands'
image=labels.img has 1 4711 4 nothing
# stays BEFORE WHAT: the loop ends, with the status of a command that failed, and puts nothing.
stays() {
    cp labels.img before
    plays "$1"
    hold "the loop ends with 1, 2 or 3 where $2, not $status" [ "$status" -ge 1 -a "$status" -le 3 ]
    untouched labels.img before
}
stays '' 'the label was deleted before'
ends 0 clean labels.img
image=labels.img has 1 4711 0 nothing
stays '' 'the key is unknown'
head -c 4000 large > label_4000
ends 0 put labels.img 4711 label_4000
stays 'trap "" XFSZ; ulimit -f 2' 'get cannot write all of the label'
says 'zkv: standard output: '
for command in read cat printf; do
    stays "$command() { return 1; }" "$command fails"
done
image=labels.img has 0 4711 1 label_4000
plays ''
hold "the loop ends with 0 again, not $status" [ "$status" -eq 0 ]
image=labels.img has 0 4711 2 <(cat label_4000; printf ', checked')

# A put that has to clean first, of a deleted key whose entries stand in the chunk that is cleaned: they are dropped,
# and the key has version 0. Its version was right when the lock was got, so that it is put.
rm -f full.img
ends 0 format full.img 4
ends 0 put full.img 7 value
ends 0 delete full.img 7
for _ in $(seq 200); do "$zkv" put full.img 1 value --no-clean 2> err || break; done
says 'refused 13'
cp full.img before
for version in 0 1 3; do
    ends 5 put full.img 7 value --if-version "$version"
    says "key 7: version $version is named, and 2 stands"
done
ends 3 put full.img 7 value --if-version 2 --no-clean
says 'key 7: 9 bytes: refused 13'
untouched full.img before
cp before cleaned.img
ends 0 clean cleaned.img
image=cleaned.img has 1 7 0 nothing
ends 5 put cleaned.img 7 value --if-version 2   # another command has cleaned: clean, or a put of another key
says 'key 7: version 2 is named, and 0 stands'
cp before cleaned.img
ends 0 put cleaned.img 1 value
ends 5 put cleaned.img 7 value --if-version 2
says 'key 7: version 2 is named, and 0 stands'
ends 0 put full.img 7 value --if-version 2
image=full.img has 0 7 1 value
ends 0 get full.img 1
# The same where a cut in a cleaning has left no chunk free, so that one is freed first.
seq 101 164 | sed 's/$/\t/' > list
# fill_two: fills the chunk that is in use with labels, and another one with deletes alone.
fill_two() {
    ends 0 load cut.img list
    for _ in $(seq 200); do "$zkv" put cut.img 1 value --no-clean 2> /dev/null || break; done
    for key in $(seq 101 164); do "$zkv" delete cut.img "$key" --no-clean || return; done
}
rm -f cut.img
ends 0 format cut.img 4
fill_two
ends 0 clean cut.img                            # one label is left, in chunk 3
ends 0 put cut.img 7 value
ends 0 delete cut.img 7
fill_two
ends 0 history cut.img 7
hold "the entries of key 7 stand in chunk 3: $(cat out)" [ "$(grep -c 'chunk 3 ' out)" -eq 2 ]
cp cut.img uncut.img
ends 0 clean cut.img 3
hold "one entry was copied: $(cat out)" grep -qx 'entries copied 1' out
dd if=uncut.img of=cut.img bs=8 skip=11 seek=11 count=1 conv=notrunc status=none    # chunk 3 is not yet free
ends 0 stat cut.img
hold "no chunk is free: $(cat out)" grep -qx 'free chunks 0' out
image=cut.img has 1 7 2 nothing
cp cut.img before
for label in value large; do
    ends 5 put cut.img 7 "$label" --if-version 1
    says 'key 7: version 1 is named, and 2 stands'
    untouched cut.img before
done
for option in '' --no-clean; do
    cp before cut.img
    ends 0 put cut.img 7 value --if-version 2 $option
    image=cut.img has 0 7 1 value
done

# 13. Chunks of 65,536 bytes.
fresh
rm -f big.img small.img copied.img
for size in 0 4095 4097 8192 32768 65535 65537 131072 -1 x '' 64k 18446744073709551616; do
    for command in 'format big.img 4' 'copy l.img big.img'; do
        ends 2 $command --chunk-size "$size"
        says "zkv: ${command%% *}: --chunk-size needs the bytes of a chunk: 4096 or 65536"
        hold "nothing is made of a size that is none" [ ! -e big.img ]
    done
done
ends 2 format big.img 4 --chunk-size
ends 2 put l.img 5 value --chunk-size 65536
says 'zkv: put: it has no such option: --chunk-size'
for chunks in 0 3 505; do
    ends 3 format big.img "$chunks" --chunk-size 65536
    says "zkv: big.img: $chunks chunks: refused 1: the image's length is not 4 to 504 chunks of 4,096 or 65,536 bytes"
done
ends 0 format small.img 5 --chunk-size 4096
hold "small chunks are 4,096 bytes" [ "$(stat -c %s small.img)" -eq 20480 ]
ends 0 format big.img 8 --chunk-size 65536 --station 7 --centre 9
hold "large chunks are 65,536 bytes" [ "$(stat -c %s big.img)" -eq 524288 ]
head -c 60000 /dev/urandom > page
head -c 65528 /dev/urandom > longest
head -c 65529 /dev/urandom > longer
for label in page longest binary value nothing; do
    ends 0 put big.img 5 "$label" --empty
    ends 0 get big.img 5
    hold "the bytes of $label come back from a large chunk" cmp -s out "$label"
    ends 0 scan big.img 5 "$label" --empty
done
ends 3 put big.img 6 longer
says 'zkv: big.img: key 6: 65529 bytes: refused 9: the value is too long (at most 65528 bytes)'
ends 3 put l.img 6 page
says 'zkv: l.img: key 6: 60000 bytes: refused 9: the value is too long (at most 4088 bytes)'
ends 0 put big.img 7 page
ends 0 put big.img 4711 value
ends 0 scan big.img 7 page
prints 'match: key 7, 60000 bytes'
ends 4 scan big.img 7 longest
ends 0 list big.img
prints 'keys 3
5 5 0 L
7 1 60000 B
4711 1 9 L A+ 450 ml'
ends 0 stat big.img
hold "stat tells chunks and their size: $(head -n 2 out)" [ "$(head -n 2 out)" = $'chunks 8\nbytes of a chunk 65536' ]
hold "stat tells the longest labels that fit, and the header's numbers: $(tail -n 3 out)" \
    [ "$(tail -n 3 out)" = $'labels of 65528 bytes left 3\nstation 7\ncentre 9' ]
ends 0 info big.img --svg big.svg
hold "info tells the chunks' size: $(head -n 1 out)" [ "$(head -n 1 out)" = '8 chunks of 65536 bytes' ]
hold "a large chunk has one block of 65,536 bytes: $(cat out)" grep -q ' data .* 1  65536     1$' out
hold "the picture has a box for each large chunk" [ "$(grep -c '<title>chunk' big.svg)" -eq 8 ]
ends 0 history big.img 5
hold "the entries of key 5 stand in the lines of chunk 2: $(cut -c 1-40 out)" [ "$(sed -n '3p' out)" = \
    '2 put chunk 2 line 1 superseded in a block that may hold another value now' ]
ends 0 check big.img
prints accepted
ends 0 digest big.img
digest=$(cat out)
ends 0 dump big.img
cp out list
ends 0 copy big.img copied.img
prints 'labels 3'
hold "a copy has chunks of the same size" [ "$(stat -c %s copied.img)" -eq 524288 ]
ends 0 check copied.img --against "$digest"
ends 0 stat copied.img
hold "a copy has the header's numbers: $(tail -n 2 out)" [ "$(tail -n 2 out)" = $'station 7\ncentre 9' ]
rm -f copied.img
ends 0 copy big.img copied.img 5
hold "a copy of 5 chunks has large ones" [ "$(stat -c %s copied.img)" -eq 327680 ]
rm -f copied.img
ends 3 copy big.img copied.img 504 --chunk-size 4096
says 'refused 9: the value is too long (at most 4088 bytes)'
hold "no copy is left" [ ! -e copied.img ]
ends 0 digest l.img
small=$(cat out)
ends 0 copy l.img copied.img 4 --chunk-size 65536
hold "a copy may have larger chunks" [ "$(stat -c %s copied.img)" -eq 262144 ]
ends 0 check copied.img --against "$small"
cp l.img before
ends 3 load l.img list
says 'zkv: list: line 2: key 7: 60000 bytes: refused 9: the value is too long (at most 4088 bytes)'
untouched l.img before
rm -f copied.img
ends 0 format copied.img 504 --chunk-size 65536
hold "504 large chunks are 33 MB" [ "$(stat -c %s copied.img)" -eq 33030144 ]
ends 0 load copied.img list
prints $'labels 3\nbatches 1'
ends 0 check copied.img --against "$digest"
# Labels of a page each, put again and again: chunks are cleaned where there is no space.
for i in $(seq 12); do
    head -c $((50000 + i)) /dev/urandom > page
    ends 0 put big.img $((i % 2)) page
    ends 0 get big.img $((i % 2))
    hold "page $i comes back" cmp -s out page
done
ends 0 clean big.img
hold "chunks are free again: $(cat out)" grep -qx 'free chunks [1-9]' out
ends 0 check big.img
ends 0 get big.img 4711
hold "a label stays through the cleanings" cmp -s out value
# A fault in a large chunk.
cp big.img before
printf '\002' | dd of=big.img bs=1 conv=notrunc status=none
ends 3 check big.img
hold "a fault in the header: $(sed -n 2p out)" [ "$(sed -n 2p out)" = 'at the header: word 0, byte 0' ]
cp before big.img
printf '\015' | dd of=big.img bs=1 seek=32 conv=notrunc status=none     # the power: 13
ends 3 check big.img
hold "a power of 13 is refused: $(head -n 1 out)" grep -q '^refused 2' out
cp before big.img
truncate -s 458752 big.img
ends 3 check big.img
hold "seven of eight large chunks are refused: $(head -n 1 out)" grep -q '^refused 2' out
truncate -s 458760 big.img
ends 3 check big.img
hold "a length of neither size is refused: $(head -n 1 out)" grep -q '^refused 1' out
ends 2 format big.img 4 --chunk-size 65536
ends 0 format big.img 4 --chunk-size 65536 --force
ends 0 format big.img 4 --force
hold "a register may get small chunks again" [ "$(stat -c %s big.img)" -eq 16384 ]

if [ "$failures" -gt 0 ]; then
    echo "zkv: $failures of $checks checks do not hold" >&2
    exit 1
fi
echo "zkv: $checks checks hold"
