#!/bin/bash
# Tries the script argue, dist/ and the installation on a copy of the repository, with no proof: dist/test.sh. In place
# of the kit stands a false one, whose `rt run` makes the program that dist/ ships. Where dist/ ships none yet, OBJECT
# names an object to try with. The last line is `N passed, M failed`.
top=$(cd "${0%/*}/.." && pwd) || exit 1
room=$(mktemp -d) || exit 1
trap 'rm -rf "$room"' EXIT
passed=0 failed=0

# is WHAT IS WANTED: whether two texts are the same.
is() {
    if [ "$2" = "$3" ]; then
        passed=$((passed + 1))
    else
        failed=$((failed + 1))
        printf 'FAILED: %s\n  is:     %s\n  wanted: %s\n' "$1" "$2" "$3"
    fi
}

# has WHAT TEXT PART: whether the text has the part.
has() {
    case $2 in
        *"$3"*) passed=$((passed + 1)) ;;
        *)
            failed=$((failed + 1))
            printf 'FAILED: %s\n  is:     %s\n  lacks:  %s\n' "$1" "$2" "$3"
            ;;
    esac
}

# Runs a command and keeps what it said on both streams and its status: out, err, status.
run() {
    "$@" >"$room/out" 2>"$room/err" </dev/null
    status=$?
    # (always with status 0)
    out=$(cat "$room/out") err=$(cat "$room/err")
}

# The false kit. Its rt run says what rt says, and makes the program; its linker is the machine's.
kit=$room/kit
mkdir -p "$kit/bin" "$kit/c" "$kit/toolchain"
cp "$top/dist/kit" "$kit/KIT-ID"
echo "commit 0000" >"$kit/WHAT"
cat >"$kit/bin/rt" <<END
#!/bin/sh
if [ "\$1" = version ]; then cat "$kit/KIT-ID"; exit; fi
[ "\$1" = run ] && [ "\${PWD##*/}" = argue ] || exit 9
echo run >>"$kit/runs"
[ ! -f "$kit/fails" ] || { echo "the proof failed"; exit 1; }
echo "rt: chose --jobs 4 for lists" >&2
echo "fn lists::push: proved"
echo "rt: chose --jobs 4 for argue" >&2
mkdir -p out
xz -dc "$room/object.xz" >out/argue.o
"$kit/bin/rattle-link" -o out/argue out/argue.o
printf '%064d%s' 0 "\$(sha256sum <out/argue | cut -c 1-64)" >out/argue.stamp
out/argue
END
cat >"$kit/bin/rattle-link" <<END
#!/bin/sh
while [ \$# -gt 0 ]; do
    case \$1 in -o) to=\$2; shift ;; *.o) of=\$1 ;; esac
    shift
done
exec cc -o "\$to" "\$of" "$room/six.c" -pthread
END
chmod +x "$kit/bin/rt" "$kit/bin/rattle-link"
# (the kit's own edge doesn't look at descriptors)
sed -e '/for (int number/,/^    }/d' "$top/dist/edge.c" >"$room/six.c"

# A copy of the repository: its last commit, with what stands outside crates/ as it is here.
copy=$room/copy
git clone -q "$top" "$copy" || exit 1
for it in argue Makefile CHANGELOG.md .gitignore dist completions docs examples README.md LICENSE; do
    [ ! -e "$top/$it" ] || { rm -rf "${copy:?}/$it" && cp -a "$top/$it" "$copy/$it"; }
done
cd "$copy" || exit 1
export RATTLE_KIT=/nowhere
PATH=$(echo "$PATH" | tr ':' '\n' | while read -r it; do [ -x "$it/rt" ] || printf '%s:' "$it"; done)
PATH=${PATH%:}
path=$PATH
with_kit=$kit/bin:$PATH

if [ -f dist/argue.o.xz ]; then
    cp dist/argue.o.xz "$room/object.xz"
elif [ -f "${OBJECT-}" ]; then
    xz -1c "$OBJECT" >"$room/object.xz"
    # (it may be of crates that have other names by now)
    nm "$OBJECT" | sed -n 's/^.* \([a-z_0-9]*\)::.*/\1/p' | sort -u >>dist/NOTICE
else
    echo "dist/test.sh: dist/ ships no program, and OBJECT names no object" >&2
    exit 1
fi
xz -dc "$room/object.xz" >"$room/object.o"

# Nothing is shipped and there is no kit: status 70.
rm -f dist/argue.o.xz dist/made
run ./argue -p SE-GR -f examples/three.af
is "no program and no kit" "$status" 70
run ./argue --help
is "help needs no program" "$status $out" "1 error: usage"
run make
has "make with nothing shipped" "$err" "dist/ ships no program yet"

# dist/make refuses what isn't proved as it stands.
PATH=$with_kit
run dist/make
has "make without an object" "$err" "has no argue.o"
(cd crates/argue && rt run) >/dev/null 2>&1
echo "another kit" >"$kit/KIT-ID"
run dist/make
has "make with another kit" "$err" "dist/kit names"
cp dist/kit "$kit/KIT-ID"
echo "# a change" >>crates.txt
run dist/make
has "make with a change" "$err" "differ from the last commit"
git checkout -q crates.txt
run dist/make
has "make with a source touched since" "$err" "crates.txt was touched since"
touch crates/lists/src/new.rt
run dist/make
has "make with a new file" "$err" "differ from the last commit"
rm crates/lists/src/new.rt
mv crates/argue/out/argue.stamp "$room/stamp"
run dist/make
has "make with no sign of a proof" "$err" "nothing shows"
cp crates/argue/out/argue "$room/linked"
cp /bin/true crates/argue/out/argue
run dist/make
has "make with another program" "$err" "wasn't linked from"
is "a refusal leaves dist/ as it was" "$(ls dist/made dist/argue.o.xz 2>/dev/null)" ""
(cd crates/argue && rt run) >/dev/null 2>&1
echo "12 passed, 1 failed" >"$room/log"
run dist/make --log "$room/log"
has "make with a gate that failed" "$err" "doesn't say that the whole gate passed"
mv crates/argue/out/argue.stamp "$room/stamp"
: >.git/rt-ci.lock
run dist/make
has "make of an object older than the gate" "$err" "nothing shows"
touch crates/argue/out/argue.o
sleep 0.1
echo "12 passed, 0 failed" >"$room/log"
run dist/make
has "make with a gate that kept nothing" "$err" "nothing shows"
run dist/make --log "$room/log"
has "make with the gate's log" "$status $err" "0 dist/make: made of commit"
touch crates/lists/src/lib.rt
run dist/make --log "$room/log"
has "make with a source touched since the gate" "$err" "crates/lists/src/lib.rt was touched since the gate"
rm .git/rt-ci.lock dist/made dist/argue.o.xz
(cd crates/argue && rt run) >/dev/null 2>&1
run dist/make
is "make of what was proved" "$status $out" "0 "
is "the object is what was built" "$(xz -dc dist/argue.o.xz | cmp - crates/argue/out/argue.o && echo same)" same
is "it names the sources" "$(sed -n 's/^sources //p' dist/made)" "$(dist/sources)"
is "the sums fit" "$(cd dist && sha256sum --quiet -c SHA256SUMS 2>&1)" ""
run make check-dist
has "check-dist" "$out" "byte for byte"
rm -rf crates/argue/out out "$kit/runs"
PATH=$path

# A machine without the kit: README's command, with nothing built.
began=$(date +%s%N)
run ./argue -p SE-GR -f examples/three.af
took=$((($(date +%s%N) - began) / 1000000))
is "the first call" "$status $out" "0 w 1 3"
is "it tells its commit" "$err" "argue: this is the program as shipped, made of the sources of commit $(git log -1 \
--format=%H -- crates crates.txt HANDLES)"
run ./argue -p SE-GR -f examples/three.af
is "the second call is silent" "$status $out $err" "0 w 1 3 "
run ./argue
is "no words" "$status $out $err" "0 argue 1.0 "
cd / && run "$copy/argue" -p EE-PR -f "$copy/examples/rivals.af" && cd "$copy" || exit 1
is "from another folder" "$out" "w 1 3
w 2"
ln -s "$copy/argue" "$room/linked-argue"
run "$room/linked-argue" -p SE-GR -f examples/three.af
is "by a link" "$status $out" "0 w 1 3"
PATH=$copy:$path run argue -p SE-GR -f examples/three.af
is "by PATH" "$status $out" "0 w 1 3"
for shell in sh bash "bash --posix"; do
    # shellcheck disable=SC2086
    run $shell argue -p SE-GR -f examples/three.af
    is "by $shell" "$status $out $err" "0 w 1 3 "
    rm -f k && $shell argue -p SE-PR -f examples/rivals.af -c k >&- <&-
    is "by $shell, output closed" "$? $(tail -n 1 k)" "4 end"
done
# The processor's time of a call, in microseconds: of ten batches of ten calls the least.
cost() {
    local least=999999 batch at
    for ((batch = 0; batch < 10; batch++)); do
        at=$(TIMEFORMAT='%3U %3S'; { time for ((at = 0; at < 10; at++)); do "$@" >/dev/null; done; } 2>&1)
        at=$(echo "$at" | awk '{printf "%d", ($1 + $2) * 100000}')
        [ "$at" -ge "$least" ] || least=$at
    done
    echo "$least"
}
call=$(cost ./argue -p SE-GR -f examples/three.af)
own=$(cost out/argue -p SE-GR -f examples/three.af)
is "a call costs under 10 ms beside the program" "$([ $((call - own)) -lt 10000 ] && echo so || echo "$call, $own")" so

# What is built is kept where a source is only touched, and made anew where out/ is stale.
was=$(stat -c %i out/argue)
touch crates/lists/src/*.rt
run ./argue -p SE-GR -f examples/three.af
is "a touched source" "$out $err $(stat -c %i out/argue)" "w 1 3  $was"
cp /bin/false out/argue
rm out/argue.seen
run ./argue -p SE-GR -f examples/three.af
is "a program that is another's" "$status $out" "0 w 1 3"
printf ' ' >>dist/edge.c
run ./argue -p SE-GR -f examples/three.af
has "a new edge" "$out $err" "w 1 3 argue: this is the program as shipped"
truncate -s -1 dist/edge.c
run ./argue
rm -rf out && make -s >/dev/null 2>&1
run ./argue -p SE-GR -f examples/three.af
is "what make built" "$status $out $err" "0 w 1 3 "

# A source with another text: without rt the shipped program, and with it a new one.
cp -a crates/lists/src/lib.rt "$room/lib.rt"
echo "// more" >>crates/lists/src/lib.rt
rm -rf out
run ./argue -p SE-GR -f examples/three.af
has "other sources, and no rt" "$out $err" "which aren't the ones here"
run ./argue -p SE-GR -f examples/three.af
is "it says so once" "$status $out $err" "0 w 1 3 "
PATH=$with_kit
touch "$kit/fails"
run ./argue -p SE-GR -f examples/three.af
is "a build that fails" "$status $out" "70 "
has "its cause" "$err" "the proof failed"
rm "$kit/fails" "$kit/runs"
run ./argue -p SE-GR -f examples/three.af
is "other sources, and rt" "$status $out" "0 w 1 3"
has "progress" "$err" "argue: proving lists, 1 of "
has "minutes" "$err" "minutes left"
run ./argue -p SE-GR -f examples/three.af
is "built by rt, and kept" "$status $out $err $(wc -l <"$kit/runs")" "0 w 1 3  1"
run ./argue --version
has "the version of what rt built" "$err" "proved and built by rt here"
# (this one was linked without dist/edge.c, so the script alone looks at descriptors)
rm -f k && ./argue -p SE-PR -f examples/rivals.af -c k >&-
is "standard output closed, built by rt" "$? $(tail -n 1 k)" "4 end"
cp -p "$room/lib.rt" crates/lists/src/lib.rt
run ./argue -p SE-GR -f examples/three.af
has "an older text put back" "$out $err" "w 1 3 argue: this is the program as shipped"
is "no proof for it" "$(wc -l <"$kit/runs")" 1
mv crates/lists/src/lib.rt "$room/lib.rt"
run ./argue -p SE-GR -f examples/three.af
has "a source that went" "$err" "argue: proving"
mv "$room/lib.rt" crates/lists/src/lib.rt
PATH=$path
run ./argue

# Closed descriptors: by the script, and by the program alone.
printf '1 ask SE-PR\n' >one.script
for program in ./argue out/argue; do
    rm -f k && $program -p SE-PR -f examples/rivals.af -c k >&-
    is "$program: query, output closed" "$? $(tail -n 1 k)" "4 end"
    rm -f k && $program -p SE-PR -f examples/rivals.af -c k >&- <&- 2>&-
    is "$program: query, all closed" "$? $(tail -n 1 k)" "4 end"
    rm -f k && out=$($program -p SE-PR -f examples/rivals.af -c k <&-)
    is "$program: query, input closed" "$? $out $(tail -n 1 k)" "0 w 1 3 end"
    rm -f k && out=$($program -p SE-PR -f examples/rivals.af -c k 2>&-)
    is "$program: query, errors closed" "$? $out $(tail -n 1 k)" "0 w 1 3 end"
    out=$($program -p SE-PR -f /dev/stdin <&-)
    is "$program: query on the closed input" "$? $out" "3 error: read framework"
    echo w 1 3 >answer.txt
    $program check -p SE-PR -f examples/rivals.af -r answer.txt -c k >&-
    is "$program: check, output closed" $? 4
    out=$($program check -p SE-PR -f examples/rivals.af -r answer.txt -c k <&- 2>&-)
    is "$program: check, others closed" "$? $out" "0 ACCEPTED"
    rm -f kl && $program live -f examples/rivals.af -s one.script -c kl >&-
    is "$program: live, output closed" "$? $(tail -n 1 kl)" "4 end"
    rm -f kl && out=$($program live -f examples/rivals.af -s one.script -c kl <&- 2>&-)
    is "$program: live, others closed" "$? $(echo "$out" | head -n 1) $(tail -n 1 kl)" "0 session 1 end"
done

# A certificate that would take the place of what it is made from.
cp examples/rivals.af f.af && ln -s f.af soft && ln f.af hard && cp one.script s.script
for it in f.af ./f.af soft hard; do
    run ./argue -p SE-PR -f f.af -c $it
    is "-c $it for -f f.af" "$status $out" "1 error: usage"
    has "the reason for $it" "$err" "'$it' of -c is the file of -f"
    run ./argue live -f $it -s s.script -cf.af
    is "live: -c f.af for -f $it" "$status $out" "1 error: usage"
done
run ./argue live -f f.af -s s.script -c=s.script
is "live: -c for -s" "$status $out" "1 error: usage"
./argue -p SE-PR -f /dev/stdin -c f.af <f.af >"$room/out" 2>/dev/null
is "-c for the input" "$? $(cat "$room/out")" "1 error: usage"
is "the files are as they were" "$(cmp f.af examples/rivals.af && cmp s.script one.script && echo same)" same
run ./argue -p SE-PR -f f.af -c other
is "another file" "$status $out $err" "0 w 1 3 "
run ./argue check -p SE-PR -f f.af -r answer.txt -c f.af
is "check reads it, and writes nothing" "$status $out" "2 error: certificate line 1 NoHeader"

# Texts of a refutation that would.
./argue -p EE-PR -f f.af -c e.cnf >answer.lrat && cp f.af f.cnf && cp e.cnf kept.k && cp answer.lrat kept.a
for it in "-f f.cnf -o f" "-f f.af -o e" "-f f.af -o ./answer"; do
    # shellcheck disable=SC2086
    run ./argue export -p EE-PR -r answer.lrat -c e.cnf -i 1 $it
    is "export $it" "$status $out" "1 error: usage"
done
is "its files are as they were" "$(cmp f.cnf f.af && cmp e.cnf kept.k && cmp answer.lrat kept.a && echo same)" same

# A folder that isn't there, and a full disk: the certificate, and the first or the second text.
ln -s /dev/full full.cnf && ln -s /dev/full late.lrat
for it in nowhere/k full.cnf; do
    run ./argue -p SE-PR -f f.af -c $it
    is "-c $it" "$status $out" "4 "
done
for it in nowhere/pair full late; do
    run ./argue export -p EE-PR -f f.af -r answer.lrat -c e.cnf -i 1 -o $it
    is "export -o $it" "$status $out" "4 "
done
is "what went before stays" "$(head -c 5 late.cnf)$(ls nowhere full.lrat 2>/dev/null)" "p cnf"

# Words: the script tells a fault exactly where the program refuses them.
told=0
while read -r line; do
    eval "words=($line)"
    run ./argue "${words[@]}"
    by_script="$status $out" said=$err
    run out/argue "${words[@]}"
    is "the program's answer to: $line" "$by_script" "$status $out"
    want=silent
    [ "$out" != "error: usage" ] || want=told
    is "the script on: $line" "$([ -z "$said" ] && echo silent || echo told)" $want
    told=$((told + 1))
done <<'END'
--problems
--problems x
-h
--help
help
--version
-V
solve -p SE-PR -f examples/rivals.af
-p SE-PR -f examples/rivals.af
-p=SE-PR -f=examples/rivals.af
-pSE-PR -fexamples/rivals.af
-f examples/rivals.af -p SE-PR --
-f examples/rivals.af -p SE-PR -- x
-f examples/rivals.af -p SE-PR x
-f examples/rivals.af -p SE-PR -
-f examples/rivals.af -p SE-PR ''
-p SE-PR -p SE-PR -f examples/rivals.af
-p se-pr -f examples/rivals.af
-p EE-GR -f examples/rivals.af
-p EE-ID -f examples/rivals.af
-p EE-SST -f examples/rivals.af
-p SE-XX -f examples/rivals.af
-p '' -f examples/rivals.af
-p
-p SE-PR
-f examples/rivals.af
-p SE-PR -f
-p SE-PR -f ''
-p SE-PR -f -
-p SE-PR -f=
-p SE-PR -f -x
-p SE-PR -f --
-p SE-PR -a 1 -f examples/rivals.af
-p DC-PR -f examples/rivals.af
-p DC-PR -a 1 -f examples/rivals.af
-p DC-PR -a=1 -f examples/rivals.af
-p DC-PR -a1 -f examples/rivals.af
-p DC-PR -a 0 -f examples/rivals.af
-p DC-PR -a 00000000000000000003 -f examples/rivals.af
-p DC-PR -a -1 -f examples/rivals.af
-p DC-PR -a +1 -f examples/rivals.af
-p DC-PR -a 1x -f examples/rivals.af
-p DC-PR -a '' -f examples/rivals.af
-p DC-PR -a 4294967295 -f examples/rivals.af
-p DC-PR -a 4294967296 -f examples/rivals.af
-p DC-PR -a 99999999999999999999999 -f examples/rivals.af
-p SE-PR -b 0 -f examples/rivals.af
-p SE-PR -b 4294967296 -f examples/rivals.af
-p SE-PR -b x -f examples/rivals.af
-p SE-PR -q -f examples/rivals.af
-p SE-PR --foo -f examples/rivals.af
-p SE-PR -r answer.txt -f examples/rivals.af
-p SE-PR -h -f examples/rivals.af
-
''
check
check -p SE-PR -f examples/rivals.af -r answer.txt -c k
check -p SE-PR -f examples/rivals.af -r answer.txt
check -p SE-PR -f examples/rivals.af -r answer.txt -c k -b 3
check -p SE-PR -a 1 -f examples/rivals.af -r answer.txt -c k
check -h
live
live -f examples/rivals.af -s one.script
live -f examples/rivals.af -s one.script -b 10
live -f examples/rivals.af -s one.script -b
live -f examples/rivals.af -s one.script -p SE-PR
live -f examples/rivals.af
bench
bench -n 10 -x 7
bench -n 0 -x 7
bench -n 100001 -x 7
bench -n 010 -x 07
bench -n 10 -x 4294967296
bench -n 10
export -p SE-PR -f examples/rivals.af -r answer.txt -c k -i 1 -o pair
export -p SE-PR -f examples/rivals.af -r answer.txt -c k -i 0 -o pair
export -p SE-PR -f examples/rivals.af -r answer.txt -c k -i x -o pair
export -p SE-PR -f examples/rivals.af -r answer.txt -c k -i 4294967296 -o pair
export -p SE-PR -f examples/rivals.af -r answer.txt -c k -i 1
export -p SE-PR -f examples/rivals.af -r answer.txt -c k -o pair
export -p SE-PR -f examples/rivals.af -r answer.txt -i 1 -o pair
export -p SE-PR -a 1 -f examples/rivals.af -r answer.txt -c k -i 1 -o pair
check -p SE-PR -f examples/rivals.af -r answer.txt -c k -i 1
Check -p SE-PR
check live
END
run ./argue --help
has "the page of help" "$err" "answers a query on a framework"
run ./argue -p SE-QQ -f examples/rivals.af
has "the task that isn't known" "$err" "the task 'SE-QQ' isn't known"
run ./argue what -p SE-PR
has "the word that isn't known" "$err" "the word 'what' isn't known"
run ./argue --version
has "the version" "$err" "argue 1.0 as shipped, of commit"

# Somebody who can't write here: a program that is as it has to be runs, though it is looked at anew each time.
if [ "$(id -u)" = 0 ] && command -v setpriv >/dev/null 2>&1; then
    chmod 755 "$room" && touch crates/lists/src/lib.rt
    run setpriv --reuid=65534 --clear-groups ./argue -p SE-GR -f examples/three.af
    is "as nobody" "$status $out $err" "0 w 1 3 "
    echo >>crates/lists/src/lib.rt
    run setpriv --reuid=65534 --clear-groups ./argue -p SE-GR -f examples/three.af
    is "as nobody, other sources" "$status $out" "70 "
    git checkout -q crates/lists/src/lib.rt
    ./argue >/dev/null
fi

# Installing.
run make -s install DESTDIR="$room/root" PREFIX=/opt/a
is "make install" "$status" 0
bin=$room/root/opt/a/bin
run "$bin/argue" -p SE-GR -f examples/three.af
is "the installed program" "$status $out $err" "0 w 1 3 "
run "$bin/argue" --help
has "its help" "$err" "answers a query on a framework"
run "$bin/argue" --version
has "its version" "$err" "as shipped, of commit"
ln -s "$bin/argue" "$room/there"
run "$room/there" -p SE-GR -f examples/three.af
is "by a link to it" "$status $out" "0 w 1 3"
for it in man/man1/argue.1 bash-completion/completions/argue zsh/site-functions/_argue doc/burgaouez/NOTICE; do
    is "$it" "$([ -s "$room/root/opt/a/share/$it" ] && echo there)" there
done
if command -v man >/dev/null 2>&1; then
    is "the manual's layout" "$(MANWIDTH=80 man --warnings -l docs/argue.1 2>&1 >/dev/null)" ""
fi
# shellcheck disable=SC1091
complete=$(. "$room/root/opt/a/share/bash-completion/completions/argue" &&
    COMP_WORDS=(argue -p DC-S) COMP_CWORD=2 && _argue && echo "${COMPREPLY[*]}")
is "completion of a task" "$complete" "DC-ST DC-SST DC-STG"
complete=$(. "$room/root/opt/a/share/bash-completion/completions/argue" &&
    COMP_WORDS=(argue check -) COMP_CWORD=2 && _argue && echo "${COMPREPLY[*]}")
is "completion of options" "$complete" "-p -a -f -r -c"
complete=$(. "$room/root/opt/a/share/bash-completion/completions/argue" &&
    COMP_WORDS=(argue lrat -) COMP_CWORD=2 && _argue && echo "${COMPREPLY[*]}")
is "completion of the options of lrat" "$complete" "-d -l"
complete=$(. "$room/root/opt/a/share/bash-completion/completions/argue" &&
    COMP_WORDS=(argue export -) COMP_CWORD=2 && _argue && echo "${COMPREPLY[*]}")
is "completion of the options of export" "$complete" "-p -a -f -r -c -i -o"
run make -s uninstall DESTDIR="$room/root" PREFIX=/opt/a
is "make uninstall" "$(find "$room/root" -type f)" ""

# Linking otherwise.
rm -rf out
began=$(date +%s%N)
run make -s
made=$((($(date +%s%N) - began) / 1000000))
is "make" "$status" 0
for flags in LDFLAGS=-static CC=clang CFLAGS=-O0 LDFLAGS=-no-pie; do
    [ $flags != CC=clang ] || command -v clang >/dev/null 2>&1 || continue
    run make -sB $flags
    is "make $flags" "$status $(out/argue -p SE-GR -f examples/three.af)" "0 w 1 3"
done
head -c 1000 dist/argue.o.xz >"$room/cut" && mv "$room/cut" dist/argue.o.xz
rm -rf out
run make -s
is "a cut object" "$([ "$status" != 0 ] && [ ! -e out/argue ] && echo refused)" refused

echo "the first call took $took ms, make $made ms; a call $call us of the processor, of which $own are the
program's; $told lines of words"
echo "$passed passed, $failed failed"
[ $failed = 0 ]
