#!/bin/sh
# What a proof cannot see: that the pages say what the program prints, that the tools of the host take our files as we take
# theirs, that Linux runs an image as our machine does, and what faults of real files and streams come to.
# Usage: checks/tools.sh. It tries the program that ./ccelf runs, and skips, with a line, what the host has no tool for.
# The last line is 'N passed, M failed'.
# shellcheck disable=SC2015,SC2016,SC2059
exec </dev/null
top=$(cd "$(dirname "$0")/.." && pwd) || exit 1
folder=$(mktemp -d) || exit 1
trap 'rm -rf "$folder"' EXIT
trap 'exit 1' HUP INT TERM
said=$folder/said
export LC_ALL=C
passed=0 failed=0

ok() {
    passed=$((passed + 1))
    echo "ok $1"
}

# fail NAME: with what the command said
fail() {
    failed=$((failed + 1))
    echo "FAILED $1"
    sed 's/^/    /' "$said"
}

skip() { echo "skipped: $1"; }

# lacks WHAT TOOL..: says so and succeeds where one of these tools is not there
lacks() {
    what=$1
    shift
    for tool in "$@"; do
        command -v "$tool" >/dev/null || { skip "$what: no $tool"; return 0; }
    done
    return 1
}

# holds NAME COMMAND..: the command ends well
holds() {
    name=$1
    shift
    if "$@" >"$said" 2>&1; then ok "$name"; else fail "$name"; fi
}

# quiet NAME COMMAND..: the command ends well, and warns of nothing
quiet() {
    name=$1
    shift
    if "$@" >"$folder/read" 2>"$said" && [ ! -s "$said" ] && ! grep -i 'warning\|error' "$folder/read" >"$said"; then
        ok "$name"
    else
        fail "$name"
    fi
}

# gives NAME STATUS REPORT COMMAND..: the command ends with this status and this report line
gives() {
    name=$1 status=$2 report=$3
    shift 3
    "$@" >output 2>report
    got=$?
    if [ $got = "$status" ] && [ "$(cat report)" = "$report" ]; then
        ok "$name"
    else
        echo "status $got and report '$(cat report)', in place of $status and '$report'" >"$said"
        fail "$name"
    fi
}

# writes NAME STATUS COMMAND..: the command writes just the file wanted and ends with this status
writes() {
    name=$1 status=$2
    shift 2
    "$@" >output 2>report
    got=$?
    if [ $got = "$status" ] && cmp -s output wanted; then
        ok "$name"
    else
        { echo "status $got in place of $status; it wrote:"; od -c output; cat report; } >"$said"
        fail "$name"
    fi
}

# The program's own status in our machine: that of the report line, where the command is done.
in_machine() {
    ./ccelf "$@" 2>line
    ended=$?
    [ $ended = 0 ] || return $ended
    ended=$(sed -n 's/^exit \([0-9]*\)$/\1/p' line)
    return "${ended:-1}" # a line of another kind fits no row, since no program below ends with 1
}

"$top/ccelf" 2>&1 >/dev/null | grep -v '^words$' >&2 # it builds the program where need be
mkdir -p "$folder/work/build" "$folder/gnu" && cd "$folder/work" && cp "$top/build/ccelf" . && cp -R "$top/examples" . || {
    echo '0 passed, 1 failed'
    exit 1
}

# Whether this host runs 32-bit programs: told by one that is not of our making.
NATIVE=no
if ! lacks 'images by themselves' python3; then
    python3 "$top/checks/objects.py" end "$folder/ends" && chmod +x "$folder/ends" && "$folder/ends" 2>/dev/null
    [ $? = 42 ] && NATIVE=yes || skip 'images by themselves: this host runs no 32-bit programs'
fi
export NATIVE

for page in README.md docs/guide.md examples/README.md; do
    lacks "the commands of $page" python3 && continue
    holds "the commands of $page print what it shows" python3 "$top/checks/pages.py" . "$top/$page"
    grep '[1-9][0-9]* skipped$' "$said"
done

# tries PROGRAM STATUS OUTPUT UNIT..: the image of these units does this, in our machine, by itself, and as GNU ld links the
# units' objects with a runtime of GNU as. OUTPUT is as printf takes it.
tries() {
    program=$1 ends=$2
    printf "$3" >wanted
    shift 3
    writes "$program in our machine" "$ends" in_machine exec 100000 "build/$program" "$@"
    chmod +x "build/$program"
    [ $NATIVE = no ] || writes "$program by itself" "$ends" "./build/$program"
    lacks "$program linked by GNU ld" as ld && return
    objects=$(echo "$*" | sed 's/\.c\>/.o/g')
    holds "GNU as assembles the runtime for $program" as --32 -o "$folder/gnu/runtime.o" "$top/checks/runtime.s"
    # shellcheck disable=SC2086 # the objects are words
    quiet "GNU ld links $program" ld -m elf_i386 -z noexecstack -o "$folder/gnu/$program" $objects "$folder/gnu/runtime.o"
    [ $NATIVE = no ] || writes "$program by itself, as GNU ld links it" "$ends" "$folder/gnu/$program"
}

cat >main.c <<'C'
int f(void); int main(void) { f(); putbyte(66); return 3; }
C
cat >f.c <<'C'
int f(void) { putbyte(65); return 0; }
C
cat >chain_main.c <<'C'
int f(void); int main(void) { putbyte(72); f(); putbyte(10); return 255; }
C
cat >chain_f.c <<'C'
int g(void); static int h(void) { putbyte(361); return 0; } int f(void) { h(); g(); h(); return 7; }
C
cat >chain_g.c <<'C'
static int h(void) { putbyte(33); return 1; } int g(void) { h(); putbyte(0); putbyte(255); return 2; }
C
tries hello 0 'Hello, world!\n' examples/hello.c
tries two-units 3 'Hi!Hi!\n' examples/two-units/main.c examples/two-units/greet.c
tries count 0 '321\n' examples/library/count.c examples/library/digits.c examples/library/line.c
tries year 6 '2026\n' examples/library/year.c examples/library/line.c examples/library/digits.c
tries two 3 AB main.c f.c
tries turned 3 AB f.c main.c
tries chain 255 'Hi!\0\377i\n' chain_g.c chain_main.c chain_f.c

# Every object and image that was stored up to here.
find . -name '*.o' >stored
find build -type f -size +0 ! -name '*.*' -exec sh -c 'head -c 4 "$1" | grep -q ELF' sh {} \; -print >>stored
stored=$(grep -c . stored)
for reader in 'readelf -aW' 'objdump -dr' size; do
    lacks "$reader of $stored objects and images" "${reader%% *}" && continue
    # shellcheck disable=SC2046,SC2086 # these are words
    quiet "$reader reads $stored objects and images" $reader $(cat stored)
done
lacks 'GNU ld -r' ld || quiet 'GNU ld joins two objects' ld -m elf_i386 -r -o "$folder/gnu/joined.o" main.o f.o
for object in main.o f.o; do
    lacks "$object byte for byte" python3 && continue
    holds "$object has the bytes that are written down by hand" python3 "$top/checks/objects.py" compare $object
done

# An object of GNU as is linked, or refused by its line: it keeps to the format, and the reader takes fewer files today.
if ! lacks 'an object of GNU as' as; then
    printf '.globl main\nmain: movl $5, %%eax\nret\n' | as --32 -o gas.o -
    if ./ccelf link build/gas gas.o 2>/dev/null; then
        : >wanted
        writes 'an object of GNU as is linked' 5 in_machine run 1000 build/gas
    else
        gives 'an object of GNU as is refused by its line' 10 'gas.o: object form' ./ccelf link build/gas gas.o
    fi
fi

# What units mean is what they do as gcc compiles them.
if ! lacks 'what units mean beside gcc' gcc; then
    printf 'The quick brown fox\njumps over\tthe lazy dog.\n\377\0' >input
    for name in primes sort queens numbers text; do
        holds "$name means what gcc makes of it" sh -c 'sh "$0" ./ccelf "$1" "$2" <input' "$top/checks/like-gcc" "$top/checks/mean/$name.c" "$top/checks/mean/print.c"
    done
fi

# Faults of real files and streams.
mkdir folder.c
gives 'a folder as a unit' 5 read ./ccelf exec 1000 build/out folder.c
gives 'no such file' 4 'missing none.c' ./ccelf exec 1000 build/out none.c
gives 'an image in no folder' 6 '' ./ccelf exec 1000 none/out main.c f.c
gives 'a word that is no text' 2 words ./ccelf exec 1000 build/out "$(printf '\377.c')"
lacks 'a name of the program that is no text' python3 ||
    gives 'a name of the program that is no text' 4 'missing none.c' python3 -c 'import os; os.execv("./ccelf", [b"\xff", "show", "none.c"])'
echo 'int main(void) { while (1) { putbyte(88); } }' >endless.c
echo 'int main(void) { int c; c = getbyte(); return c + 2; }' >byte.c
gives 'an empty input of mean' 0 'exit 1' ./ccelf mean 100 byte.c
gives 'a closed input that mean reads' 5 read sh -c './ccelf mean 100 byte.c <&-'
gives 'a closed output' 6 '' sh -c './ccelf run 1000 build/two >&-'
gives 'a closed report' 6 '' sh -c './ccelf run 1000 build/two 2>&-'
gives 'a closed input that is not read' 0 'exit 3' sh -c './ccelf run 1000 build/two <&-'
if [ -c /dev/full ]; then
    gives 'a full output' 6 '' sh -c './ccelf run 1000 build/two >/dev/full'
    gives 'a full output of show' 6 '' sh -c './ccelf show main.c >/dev/full'
    gives 'a full output of mean' 6 '' sh -c './ccelf mean 100 endless.c >/dev/full'
    gives 'a full report' 6 '' sh -c './ccelf run 1000 build/two 2>/dev/full'
else
    skip 'full outputs: no /dev/full'
fi
if ! lacks 'an input that is read' python3; then
    python3 "$top/checks/objects.py" write reads.o && ./ccelf link build/reads reads.o 2>/dev/null
    gives 'a closed input that is read' 5 read sh -c './ccelf run 1000 build/reads <&-'
    gives 'an empty input' 0 'exit 0' ./ccelf run 1000 build/reads
    gives 'an input of one byte' 0 'exit 1' sh -c 'printf x | ./ccelf run 1000 build/reads'
fi

# The limits that the pages tell.
mkdir many
for number in $(seq 2 4096); do echo "int f$number(void) { return 0; }" >"many/$number.c"; done
echo 'int f4096(void); int main(void) { f4096(); return 5; }' >many/main.c
gives '4,096 units' 0 'exit 5' ./ccelf exec 1000 build/many many/*.c
echo 'int f1(void) { return 0; }' >many/1.c
gives '4,097 units' 2 words ./ccelf exec 1000 build/many many/*.c
{ echo 'int main(void) { return 0; }'; head -c 1048547 /dev/zero | tr '\0' ' '; } >wide.c
gives 'a unit of 1,048,576 bytes' 0 'exit 0' ./ccelf exec 1000 build/wide wide.c
printf ' ' >>wide.c
gives 'a unit of 1,048,577 bytes' 9 'wide.c: limit text' ./ccelf exec 1000 build/wide wide.c
head -c 134217729 /dev/zero >long.c
head -c 1048577 /dev/zero | tr '\0' ' ' >text.c
gives 'a text of 1,048,577 bytes' 9 'text.c: limit text' ./ccelf exec 1000 build/text text.c
head -c 1048576 /dev/zero | tr '\0' ' ' >text.c
gives 'a text of 1,048,576 bytes' 12 'unresolved main runtime' ./ccelf exec 1000 build/text text.c
gives 'a file of 134,217,729 bytes' 9 'long.c: limit file' ./ccelf exec 1000 build/long long.c
rm long.c

lacks 'each allocation failing' cc ||
    {
        holds 'each allocation failing' sh "$top/checks/fail-each-allocation" ./ccelf exec 1000 build/two main.c f.c
        holds 'each allocation failing in mean' sh "$top/checks/fail-each-allocation" ./ccelf mean 100000 "$top/checks/mean/text.c" "$top/checks/mean/print.c"
    }

# The manual page: well formed, with the statuses of docs/commands.md. A date in the future is a fault of the host's clock.
if ! lacks 'the manual page' mandoc; then
    mandoc -T lint "$top/man/ccelf.1" 2>&1 | grep -v 'date in the future' >"$said"
    if [ -s "$said" ]; then fail 'mandoc finds nothing in the manual page'; else ok 'mandoc finds nothing in the manual page'; fi
fi
sed -n 's/^| \([0-9]*\) | \([A-Z][A-Za-z]*\) |.*/\1 \2/p' "$top/docs/commands.md" | uniq >commands
sed -n 's/^\.It \([0-9][0-9]*\) Ta \([A-Z][A-Za-z]*\) Ta.*/\1 \2/p' "$top/man/ccelf.1" | uniq >manual
holds 'the manual page has the statuses of docs/commands.md' sh -c 'test -s commands && diff commands manual'
holds 'docs/map.md has the storeys and crates of crates.txt' awk -f "$top/checks/crates.awk" "$top/crates.txt" "$top/docs/map.md"

# ./ccelf builds where need be, with a stand-in for rt that tells when it is called.
mkdir -p "$folder/top/crates/ccelf" "$folder/bin" "$folder/a folder" && cp "$top/ccelf" "$folder/top/"
touch "$folder/top/crates.txt"
cat >"$folder/bin/rt" <<'RT'
#!/bin/sh
echo "$*" >>../../calls
[ ! -f ../../broken ] || { echo 'logic=proved of a crate below'; exit 1; }
echo 'crate cc_base: modules'
echo 'logic=proved'
sleep 2
mkdir -p out
printf '#!/bin/sh\n[ $# = 0 ] && exit 2\nprintf "<%%s>" "$@"\ncat\nexit 7\n' >out/ccelf
chmod +x out/ccelf
echo 'rt: running out/ccelf; to give it other input, run that file yourself'
out/ccelf
RT
chmod +x "$folder/bin/rt"
# wrapped NAME CALLS: ./ccelf passes on words, input, output and status, and rt was called so many times by then
wrapped() {
    printf '<a b><><*>input' >wanted
    (cd "$folder/a folder" && printf input | PATH="$folder/bin:$PATH" ../top/ccelf 'a b' '' '*') >output 2>"$said"
    got=$?
    calls=$(grep -c . "$folder/top/calls")
    echo "status $got, rt called $calls times, output $(cat output)" >>"$said"
    if [ $got = 7 ] && cmp -s output wanted && [ "$calls" = "$2" ]; then ok "$1"; else fail "$1"; fi
}
wrapped './ccelf builds on first use' 1
cp "$said" told
holds './ccelf says that it builds, and goes on' sh -c 'grep -q "^ccelf: proving" told && grep -q "crates proved: 1, the last of them cc_base" told'
wrapped './ccelf builds nothing where nothing changed' 1
mkdir -p "$folder/top/crates/low/out" && touch "$folder/top/crates/low/out/made.antt"
wrapped './ccelf builds nothing where only what rt keeps changed' 1
touch "$folder/top/crates/low/lib.antt"
wrapped './ccelf builds after a source changed' 2
ln -s "$folder/top/ccelf" "$folder/bin/linked"
gives './ccelf by a link to it' 7 '' "$folder/bin/linked" x
touch "$folder/top/crates/low/lib.antt" "$folder/top/broken"
holds './ccelf runs nothing old after a failed build' sh -c '! PATH="$1/bin:$PATH" "$1/top/ccelf" x >output 2>&1 && ! grep "<x>" output' sh "$folder"

echo "$passed passed, $failed failed"
[ $failed = 0 ]
