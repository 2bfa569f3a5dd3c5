#!/usr/bin/env bash
# Runs the built program where its surroundings are bad: files that can't be read, files at and past their
# longest size, bytes that are no text, a standard output that is closed or full. Each case has the exit
# status, the standard output and the standard error that docs/SCRIPTS.md states. Then runs the script
# `tars_tool` at the top, over the built program and without it.
set -u
top=$(cd "$(dirname "$0")/.." && pwd)
program="$top/crates/tars_tool/out/tars_tool"
work=$(mktemp -d)
trap 'rm -rf "$work"' EXIT
chmod 755 "$work"
passed=0
failed=0

if [ ! -x "$program" ]; then
    echo "the program is not built: rt ci builds it" >&2
    echo "0 passed, 1 failed"
    exit 1
fi
cp "$program" "$work/tars_tool"
cd "$work" || exit 1

# The outcome of a case: its name, the status, the output and the line on standard error that are wanted.
# What the program did lies in `status`, `out` and `err`.
judge() {
    if [ "$(cat status)" = "$2" ] && [ "$(cat out)" = "$3" ] && [ "$(cat err)" = "$4" ]; then
        passed=$((passed + 1))
    else
        failed=$((failed + 1))
        echo "FAILED: $1: status $(cat status), wanted $2"
        head -c 300 out err
    fi
}

# A case whose standard output is kept: name, status, output, error line, then the arguments.
case_of() {
    program_case ./tars_tool "$@"
}

# The same of another program: its path first.
program_case() {
    local program=$1 name=$2 status=$3 out=$4 err=$5
    shift 5
    timeout 300 "$program" "$@" >out 2>err </dev/null
    echo $? >status
    judge "$name" "$status" "$out" "$err"
}

# A case of the script first.plan whose one file is made by the caller.
interface_case() {
    case_of "$1" "$2" "$3" "$4" plan first.plan
}

# A check of an interface file, and a check of what it printed: name, text, then the file.
check_case() {
    case_of "$1" 0 "$2" '' check "$3"
    cp out printed.tars
    case_of "$1, once more" 0 "$2" '' check printed.tars
}

header() {
    printf 'client calc.tars\ninterface M::Calc\nobject A.B.C@tcp -h %s -p 9001 -t 3000\nservant add add a b\n' "$1"
}

# A script of so many bytes: the header, and closes after it. The host's name fills up the rest.
long_script() {
    local host=h
    while [ $((($1 - $(header "$host" | wc -c)) % 6)) -ne 0 ]; do
        host=h$host
    done
    header "$host"
    yes close | head -c $(($1 - $(header "$host" | wc -c)))
}

# An interface file of so many bytes: a comment fills it up.
long_interface() {
    printf '%s//' "$calc"
    head -c $(($1 - ${#calc} - 2)) /dev/zero | tr '\0' 'a'
}

calc='module M { interface Calc { int add(int a, int b); }; };'
usage='usage: check encode decode compat plan made drill serve call'
report='call 1 line 1 add node 1 live id 1 value 5
sent 1 1 call 1 0000002510012C3C40015605412E422E4366036164647D00000410022003810BB8980CA80C
got 1 1 used 1 0000001510012C30014C5C6D0000020005780C8600
done calls 1 two-way 1 one-way 0'
canonical='module M
{
    interface Calc
    {
        int add(int a, int b);
    };
};'
none='done calls 0 two-way 0 one-way 0'

echo "$calc" >calc.tars
{ header 127.0.0.1; printf 'call 1 add 2 3\nserve 1\nwork 1\ndeliver 1\n'; } >first.plan

# Arguments.
case_of 'a script is run' 0 "$report" '' plan first.plan
case_of 'no argument' 2 '' "$usage"
case_of 'an unknown command' 2 '' "$usage" paln first.plan
case_of 'an argument that is no text' 2 '' "$usage" plan $'\xff.plan'
case_of 'an empty argument' 2 '' "$usage" plan ''

# Scripts that can't be read, or hold no script.
mkdir folder
case_of 'no script' 3 '' 'read fault' plan none.plan
case_of 'a folder as script' 3 '' 'read fault' plan folder
: >empty.plan
case_of 'an empty script' 1 'refused empty.plan script 3 0' '' plan empty.plan
printf 'client calc.tars\0\n' >nul.plan
case_of 'a script with a NUL' 1 'refused nul.plan script 3 18' '' plan nul.plan
tail -n +2 first.plan >>nul.plan
case_of 'a file name with a NUL' 3 '' 'read fault' plan nul.plan
printf 'client calc\xff.tars\n' >bytes.plan
case_of 'a script that is no text' 1 'refused bytes.plan script 1 0' '' plan bytes.plan
long_script 1048576 >longest.plan
case_of 'the longest script' 0 "$none" '' plan longest.plan
long_script 1048577 >longer.plan
case_of 'a script of one byte more' 1 'refused longer.plan size 1 1048576' '' plan longer.plan

# A script or interface file that may not be read. Who runs as root may read it all the same.
chmod 000 first.plan
if [ -r first.plan ] && command -v setpriv >/dev/null; then
    setpriv --reuid 65534 --regid 65534 --clear-groups timeout 60 ./tars_tool plan first.plan >out 2>err </dev/null
    echo $? >status
    judge 'a script that may not be read' 3 '' 'read fault'
elif [ -r first.plan ]; then
    echo 'skipped: a script that may not be read (no setpriv)'
else
    case_of 'a script that may not be read' 3 '' 'read fault' plan first.plan
fi
chmod 644 first.plan

# Interface files.
rm calc.tars
interface_case 'no interface file' 3 '' 'read fault'
mkdir calc.tars
interface_case 'a folder as interface file' 3 '' 'read fault'
rmdir calc.tars
: >calc.tars
interface_case 'an empty interface file' 1 'refused first.plan script 6 17' ''
printf '%s\0\n' "$calc" >calc.tars
interface_case 'an interface file with a NUL' 1 "refused calc.tars lex 1 ${#calc}" ''
printf '\xff%s\n' "$calc" >calc.tars
interface_case 'an interface file that is no text' 1 'refused calc.tars lex 1 0' ''
long_interface 1048576 >calc.tars
interface_case 'the longest interface file' 0 "$report" ''
long_interface 1048577 >calc.tars
interface_case 'an interface file of one byte more' 1 'refused calc.tars size 1 1048576' ''
case_of 'a check of one byte more' 1 'refused calc.tars size 1 1048576' '' check calc.tars
long_interface 1048576 >calc.tars
case_of 'a check of the longest interface file' 0 "$canonical" '' check calc.tars
echo "$calc" >calc.tars
case_of 'an interface file is checked' 0 "$canonical" '' check calc.tars
case_of 'a check of no file' 3 '' 'read fault' check no.tars
case_of 'a check of a folder' 3 '' 'read fault' check folder
case_of 'a check without a file' 2 '' "$usage" check
case_of 'a check of a script' 1 'refused first.plan lex 1 11' '' check first.plan

# An interface file of the server's own.
sed 's/^client .*/&\nserver calc.tars/' first.plan >served.plan
case_of 'one interface file, named for both sides' 0 "$report" '' plan served.plan
sed 's/^client .*/&\nserver none.tars/' first.plan >served.plan
case_of 'no interface file of the server' 3 '' 'read fault' plan served.plan
sed 's/^client .*/&\nserver first.plan/' first.plan >served.plan
case_of "a server's interface file that is none" 1 'refused first.plan lex 1 11' '' plan served.plan

# Interface files with includes.
mkdir -p idl
echo "$calc" >idl/calc.tars
echo '#include "idl/calc.tars"' >including.tars
case_of 'an included file in a folder' 0 "$canonical" '' check including.tars
sed 's#^client .*#client including.tars#' first.plan >including.plan
case_of 'a script over an included interface' 0 "$report" '' plan including.plan
echo '#include "idl/none.tars" module M { };' >missing.tars
case_of 'an included file that is not there' 3 '' 'read fault' check missing.tars
sed 's#^client .*#client missing.tars#' first.plan >missing.plan
case_of 'a script over a missing file' 3 '' 'read fault' plan missing.plan
echo '#include "circle_b.tars"' >circle_a.tars
echo '#include "circle_a.tars"' >circle_b.tars
case_of 'files that include each other' 1 'refused circle_b.tars check 1 9' '' check circle_a.tars
for number in $(seq 64); do
    echo "#include \"file_$((number + 1)).tars\"" >"file_$number.tars"
done
echo 'module M { };' >file_65.tars
case_of 'the 65th file' 1 'refused file_64.tars check 12 9' '' check file_1.tars
case_of '64 files' 0 '' '' check file_2.tars

# What a check printed is accepted, and printed once more.
check_case 'a checked interface file' "$canonical" calc.tars
awk '/^## Canonical text/ {found = 1} found && /^```/ {fence++; next} found && fence == 1 {print}' \
    "$top/docs/IDL.md" >shown.tars
check_case 'the text that docs/IDL.md shows' "$(cat shown.tars)" shown.tars
printf '#include "idl/kinds.tars"\n#include "idl/units.tars"\nmodule Parts { struct Part { 1 optional Units::Unit unit = G;
    0 require Kind kind; }; key[Part, kind]; }; // parts\n' >parts.tars
printf '#include "idl/units.tars"\nmodule Parts { enum Kind { SCREW, NUT } /* */; };' >idl/kinds.tars
printf 'module Units\r\n{ enum Unit { KG = 1, G, }; };\r\n' >idl/units.tars
check_case 'a file with those that it includes' 'module Units
{
    enum Unit
    {
        KG = 1,
        G = 2,
    };
};
module Parts
{
    enum Kind
    {
        SCREW = 0,
        NUT = 1,
    };
    struct Part
    {
        0 require Kind kind;
        1 optional Units::Unit unit = 2;
    };
    key[Part, kind];
};' parts.tars
printf 'module Units { const double KG = 1; };' >idl/units.tars
case_of 'a fault of an included file' 1 'refused idl/units.tars check 7 21' '' check parts.tars

# The values of a struct.
echo 'module M { struct S { 0 require int a; 1 optional int b = 7; }; };' >s.tars
printf '( a = 1,\n  b = 7 )\n' >v.txt
case_of 'a value is encoded' 0 00011007 '' encode s.tars M::S v.txt
printf '\xff' >bytes.txt
case_of 'a value that is no text' 1 'refused bytes.txt value 1 0' '' encode s.tars M::S bytes.txt
echo '00 01' >h.txt
case_of 'a body is decoded' 0 '(a=1, b=7)' '' decode s.tars M::S h.txt
case_of 'a folder as body' 3 '' 'read fault' decode s.tars M::S folder

# Two versions of a struct.
echo 'module M { struct S { 0 require int a; 1 require int b; }; };' >new.tars
case_of 'versions that agree' 0 compatible '' compat new.tars s.tars M::S
echo 'module M { struct S { 0 require short a; 2 require int b; }; };' >new.tars
case_of 'the first reason why versions do not agree' 0 'incompatible mismatch 0' '' compat s.tars new.tars M::S
case_of 'a struct that the new version does not declare' 1 'refused calc.tars struct 1 0' '' compat s.tars calc.tars M::S
case_of 'no new version' 3 '' 'read fault' compat s.tars none.tars M::S

# What asks for help or for a version is no command.
for words in help --help -h --version -V 'help check' 'check --help' 'check help extra'; do
    case_of "no command: $words" 2 '' "$usage" $words
done

# Standard output.
: >out
timeout 60 ./tars_tool plan first.plan >&- 2>err </dev/null
echo $? >status
judge 'a closed output' 4 '' 'write fault'
if [ -w /dev/full ]; then
    timeout 60 ./tars_tool plan first.plan >/dev/full 2>err </dev/null
    echo $? >status
    judge 'a full output' 4 '' 'write fault'
    timeout 60 ./tars_tool plan empty.plan >/dev/full 2>err </dev/null
    echo $? >status
    judge 'a full output for a refusal' 4 '' 'write fault'
fi
timeout 60 ./tars_tool plan first.plan >out 2>/dev/full </dev/null
echo $? >status
: >err
judge 'a full standard error is not needed' 0 "$report" ''
timeout 60 ./tars_tool >out 2>/dev/full </dev/null
echo $? >status
judge 'a full standard error leaves the status' 2 '' ''

# The examples, as docs/SCRIPTS.md shows them: what stands between the next two fences after a file's name.
shown_for() {
    awk -v file="(../examples/$1)" \
        'index($0, file) {found = 1} found && /^```/ {fence++; next} found && fence == 1 {print} fence == 2 {exit}' \
        "$top/docs/SCRIPTS.md"
}
cp "$top"/examples/* .
case_of 'examples/shop.tars' 0 "$(shown_for shop.tars)" '' check shop.tars
case_of 'examples/calc.tars' 0 "$canonical" '' check calc.tars
case_of 'examples/typo.tars' 1 'refused typo.tars parse 5 50' '' check typo.tars
case_of 'examples/item.txt' 0 "$(shown_for item.txt)" '' encode shop.tars Shop::Item item.txt
case_of 'examples/shop_next.tars' 0 "$(shown_for shop_next.tars)" '' compat shop.tars shop_next.tars Shop::Item
case_of 'examples/item.hex' 0 "$(shown_for item.hex)" '' decode shop.tars Shop::Item item.hex
for plan in first pieces late too_large rules versions overload refused typo; do
    shown=$(shown_for "$plan.plan")
    status=0
    case $plan in refused | typo) status=1 ;; esac
    case_of "examples/$plan.plan" "$status" "$shown" '' plan "$plan.plan"
done

# The script at the top, by a symbolic link, over the built program: any name of a file will do.
ln -s "$top/tars_tool" linked
mkdir -p folder/idl
cp calc.tars folder/idl/.hidden.tars
cp calc.tars folder/idl/served.tars
sed 's#^client .*#  client  folder/idl/.hidden.tars\nserver folder/idl/served.tars  #' first.plan >folder/nested.plan
cp first.plan a=b.plan
cp first.plan program
program_case ./linked 'a linked script runs the built program' 0 "$report" '' plan first.plan
program_case ./linked 'files in folders' 0 "$report" '' plan folder/nested.plan
program_case ./linked 'an absolute name' 0 "$report" '' plan "$work/first.plan"
program_case ./linked 'a name with an equals sign' 0 "$report" '' plan a=b.plan
program_case ./linked 'usage by the linked script' 2 '' "$usage" --help

# A copy of it beside which nothing is built: usage is told at once, the rest by a program that is compiled.
mkdir unbuilt
cp "$top/tars_tool" "$top/crates.txt" unbuilt/
note='tars_tool: not proved yet, so compiled for this run alone; it reads files below this folder only (rt ci proves and builds it)'
program_case unbuilt/tars_tool 'usage before the proof' 2 '' "$usage" plan first.plan more
program_case unbuilt/tars_tool 'a name that only the proved program reads' 125 '' "$note
tars_tool: a=b.plan can be read by the proved program alone" plan a=b.plan
PATH=/usr/bin:/bin program_case unbuilt/tars_tool 'no toolchain' 125 '' \
    "tars_tool: the toolchain's command rt is not on the path, and the program is not built" plan first.plan
(cd "$top" && find crates -path '*/out' -prune -o -type f -print0 | xargs -0 cp --parents -t "$work/unbuilt")
timeout 300 unbuilt/tars_tool plan folder/nested.plan >out 2>err </dev/null
echo $? >status
head -n 1 err >first && mv first err
judge 'a run before the proof' 0 "$report" "$note"
timeout 300 unbuilt/tars_tool check shop.tars >out 2>err </dev/null
echo $? >status
head -n 1 err >first && mv first err
judge 'a check before the proof' 0 "$(shown_for shop.tars)" "$note"
timeout 300 unbuilt/tars_tool encode shop.tars Shop::Item item.txt >out 2>err </dev/null
echo $? >status
head -n 1 err >first && mv first err
judge 'values before the proof' 0 "$(shown_for item.txt)" "$note"
timeout 300 unbuilt/tars_tool compat shop.tars shop_next.tars Shop::Item >out 2>err </dev/null
echo $? >status
head -n 1 err >first && mv first err
judge 'versions before the proof' 0 "$(shown_for shop_next.tars)" "$note"

echo "$passed passed, $failed failed"
[ "$failed" -eq 0 ]
