#!/usr/bin/env bash
# Looks that ./clnp runs the proved program exactly where it was built of the sources that are there, and else the same sources
# unproved, and says so; and that ./clnp prove builds none where nothing changed. It works on a small tree of its own, for which a
# stand-in for the kit builds a program that tells the octets of its sources. Where the built program of this repository is there,
# it looks how soon that starts.
set -u
root="$(cd "$(dirname "$0")/../.." && pwd)" || exit 2
work="$(mktemp -d)" || exit 2
trap 'rm -rf "$work"' EXIT
tree="$work/tree" code=crates/leaf/src
mkdir -p "$work/bin" "$work/without" "$tree/$code" "$tree/crates/leaf/specs" "$tree/crates/leaf/proofs" "$tree/crates/clnp_tool/src"
cp "$root/clnp" "$tree/clnp"
printf 'leaf:\nclnp_tool: leaf\n' >"$tree/crates.txt"
echo one >"$tree/$code/lib.rt"
echo main >"$tree/crates/clnp_tool/src/main.rt"
echo definition >"$tree/crates/leaf/specs/Lib.antt"
echo proof >"$tree/crates/leaf/proofs/Lib.antt"

mkdir -p "$work/rlibs/std.rlib" "$work/logic_built" "$work/rattle/logic" "$work/toolchain" "$work/c"
touch "$work/rattle/logic/antt-project.json" "$work/c/libos_c.a" "$work/c/liblibc_c.a"

cat >"$work/bin/rt" <<'RT'
#!/usr/bin/env bash
# `rt version`; in crates/clnp_tool `rt try .. -- WORD..`, which runs and proves nothing, and `rt run`, of a kit whose prover isn't
# where it was.
if [ "$1" = version ]; then
    echo "a stand-in"
    exit 0
fi
if [ "$1" = try ]; then
    while [ "$1" != -- ]; do
        shift
    done
    case "${2:-}" in
        long)
            echo "run=none proved=no" >&2
            exit 2
            ;;
        copy) cat ;;
        fail)
            echo "clnp: bad words at 0" >&2
            printf 'checked: ended status=3\nrun=ended status=3 runners=1 proved=no\n' >&2
            exit 3
            ;;
        *) echo "unproved $(cat ../*/src/*.rt ../*/specs/*.antt | tr '\n' ' ')" ;;
    esac
    printf 'checked: ended status=0\nrun=ended status=0 runners=1 proved=no\n' >&2
    exit 0
fi
echo built >>../../built
mkdir -p out
printf '#!/bin/sh\necho "%s"\n' "$(cat ../*/src/*.rt ../*/specs/*.antt | tr '\n' ' ')" >out/clnp_tool
chmod +x out/clnp_tool
RT
cat >"$work/bin/rattle" <<'RATTLE'
#!/usr/bin/env bash
# `rattle build --help`, and `rattle build ROOT .. -o PATH` in the folder of a crate: the library of its root src/lib.rt, or the
# object file of src/main.rt, for which each library is where the words say.
if [ "$2" = --help ]; then
    echo "  --statements"
    exit 0
fi
to="${*: -1}"
if [ "$2" = src/lib.rt ]; then
    if [ "$(cat proofs/Lib.antt 2>/dev/null)" = slow ]; then
        echo $$ >"$SLOW" && sleep 20
    fi
    if [ "$(cat proofs/Lib.antt 2>/dev/null)" = brief ]; then
        sleep 2
    fi
    if [ "$(cat proofs/Lib.antt 2>/dev/null)" = wrong ]; then
        echo "this isn't proved"
        exit 1
    fi
    echo "${PWD##*/}" >>../../proved
    mkdir -p "$to" && echo "${PWD##*/}" >"$to/name"
    exit
fi
for word in "$@"; do
    case "$word" in
        std=* | dependency=*) ;;
        *=?*) [ "$(cat "${word#*=}/name")" = "${word%%=*}" ] || exit 1 ;;
    esac
done
echo built >>../../built
cat ../*/src/*.rt ../*/specs/*.antt | tr '\n' ' ' >"$to"
if [ -f ../../meanwhile ]; then
    mv ../../meanwhile ../leaf/src/lib.rt
fi
RATTLE
cat >"$work/bin/rattle-link" <<'LINK'
#!/usr/bin/env bash
# `rattle-link .. -o PROGRAM FILE ..`
while [ "$1" != -o ]; do
    shift
done
printf '#!/bin/sh\necho "%s"\n' "$(cat "$3")" >"$2"
chmod +x "$2"
LINK
chmod +x "$work/bin/rt" "$work/bin/rattle" "$work/bin/rattle-link"
failed=0

wrong() {
    echo "$1" >&2
    cat "$work/errors" 2>/dev/null >&2
    failed=1
}

# The proved program of this repository starts within a tenth of a second: the least of five starts.
if [ -x "$root/crates/clnp_tool/out/clnp_tool" ] && "$root/clnp" --version 2>/dev/null | grep -q '^proved by '; then
    least=1000000
    for _ in 1 2 3 4 5; do
        before="$(date +%s%N)"
        "$root/clnp" --help >/dev/null
        took=$((($(date +%s%N) - before) / 1000))
        [ "$took" -ge "$least" ] || least="$took"
    done
    [ "$least" -le 100000 ] || wrong "the proved program takes $least microseconds to start"
fi
export PATH="$work/bin:$PATH"

sources_say() {
    cat "$tree"/crates/*/src/*.rt "$tree"/crates/*/specs/*.antt | tr '\n' ' '
}

# What is run before it is proved anew is the proved program of the sources as they are, or those sources unproved, which is said.
# Then it is proved, if it isn't, and what the proved program tells is what the sources say. So many were built before and then.
want() {
    local said before
    before="$(wc -l <"$tree/built")"
    said="$("${3:-$tree/clnp}" 2>"$work/errors")"
    if [ "$before" -eq "$2" ]; then
        [ "$said" = "$(sources_say)" ] && [ ! -s "$work/errors" ] || wrong "$1: said '$said', wanted the proved '$(sources_say)'"
    elif [ "$said" != "unproved $(sources_say)" ] || ! grep -q "this program isn't proved" "$work/errors"; then
        wrong "$1: said '$said', wanted the unproved '$(sources_say)'"
    fi
    "${3:-$tree/clnp}" prove 2>"$work/errors" || wrong "$1: it isn't proved"
    said="$("${3:-$tree/clnp}" 2>"$work/errors")"
    if [ "$said" != "$(sources_say)" ] || [ "$(wc -l <"$tree/built")" -ne "$2" ] || [ -s "$work/errors" ]; then
        wrong "$1: said '$said', wanted '$(sources_say)', built $(wc -l <"$tree/built") times and not $2"
    fi
}

touch "$tree/built"

want "at first" 1
want "nothing changed" 1
echo two >"$tree/$code/lib.rt"
want "a file of other octets" 2
touch -d '2001-01-01' "$tree/$code/lib.rt"
want "the same octets with another time" 2
echo six >"$work/other" && touch -d '2001-01-01' "$work/other" && mv "$work/other" "$tree/$code/lib.rt"
want "an old file in the place of another of the same length" 3
echo new >"$tree/$code/new.rt"
want "a file more" 4
mkdir "$tree/$code/deep" && echo deep >"$tree/crates/leaf/specs/Deep.antt"
want "a definition more" 5
rm "$tree/$code/new.rt"
want "a file fewer" 6
echo other >"$tree/crates/leaf/specs/Deep.antt"
want "another definition" 7
echo other >"$tree/crates/leaf/proofs/Lib.antt"
want "another proof" 7
mkdir -p "$tree/crates/more/src" && echo more >"$tree/crates/more/src/lib.rt"
want "a crate more" 8
printf 'leaf:\nclnp_tool: leaf more\nmore:\n' >"$tree/crates.txt"
want "another list of crates" 9
printf '#!/bin/sh\necho strange\n' >"$tree/crates/clnp_tool/out/clnp_tool"
want "another program in its place" 10
rm "$tree/crates/clnp_tool/out/clnp_tool"
want "no program" 11
echo again >"$tree/$code/lib.rt" && echo later >"$tree/meanwhile"
want "a source that changes while it is built" 13
ln -s "$tree/clnp" "$work/bin/link" && ln -s link "$work/bin/clnp"
want "a link to a link" 13 "$work/bin/clnp"
cd "$work/bin" && want "a link in the path" 13 clnp
cd "$tree" && want "by its name here" 13 ./clnp
cd "$tree/$code" && want "from another folder" 13 ../../../clnp
cp -a "$tree" "$work/copy" && tree="$work/copy"
want "a copy" 13
sleep 0.1
touch "$tree/crates/clnp_tool/out/clnp_tool" && rm "$tree/crates/clnp_tool/out/"clnp_stamp.*
want "no stamp, and no source changed since" 13
rm "$tree/crates/clnp_tool/out/"clnp_stamp.* && echo another >"$tree/$code/lib.rt"
want "no stamp, and a source that changed" 14
# Where a crate isn't proved no program is built or run, and a build that is stopped leaves nothing at work. What was proved before
# isn't proved again.
echo broken >"$tree/$code/lib.rt" && echo wrong >"$tree/crates/leaf/proofs/Lib.antt"
said="$("$tree/clnp" prove 2>"$work/errors")"
status=$?
if [ "$status" -ne 70 ] || [ -n "$said" ] || ! grep -q "this isn't proved" "$work/errors"; then
    echo "with a crate that isn't proved: said '$said', ended with $status" >&2
    failed=1
fi
echo slow >"$tree/crates/leaf/proofs/Lib.antt"
SLOW="$work/slow" "$tree/clnp" prove >"$work/said" 2>"$work/errors" &
process=$!
for _ in $(seq 300); do
    [ ! -s "$work/slow" ] || break
    sleep 0.1
done
kill "$process" && wait "$process"
status=$?
if [ "$status" -ne 130 ] || [ -s "$work/said" ] || [ ! -s "$work/slow" ] || kill -0 "$(cat "$work/slow")" 2>/dev/null; then
    echo "a build that is stopped: said '$(cat "$work/said")', ended with $status" >&2
    failed=1
fi
# How often crates were proved.
want_proved() {
    local proved
    proved="$(grep -c "^$2\$" "$tree/proved")"
    if [ "$proved" -ne "$3" ]; then
        echo "$1: $2 was proved $proved times and not $3" >&2
        failed=1
    fi
}
leaf="$(grep -c '^leaf$' "$tree/proved")" more="$(grep -c '^more$' "$tree/proved")"
echo proof >"$tree/crates/leaf/proofs/Lib.antt"
want "behind a build that was stopped" 15
want_proved "behind a build that was stopped" leaf $((leaf + 1))
want_proved "behind a build that was stopped" more "$more"
rm "$tree/crates/clnp_tool/out/rlib/leaf.basis" "$tree/crates/clnp_tool/out/clnp_tool"
want "behind a build that was killed" 16
want_proved "behind a build that was killed" leaf $((leaf + 2))
want_proved "behind a build that was killed" more "$more"
# Of two that prove at once the second waits for the program of the first.
echo brief >"$tree/crates/leaf/proofs/Lib.antt" && echo together >"$tree/$code/lib.rt"
"$tree/clnp" prove 2>"$work/errors" &
process=$!
sleep 0.5
"$tree/clnp" prove 2>"$work/waited" || wrong "the second of two proofs at once failed"
wait "$process" || wrong "the first of two proofs at once failed"
grep -q "this one waits" "$work/waited" || wrong "the second of two proofs at once doesn't wait"
want "two starts at once" 17
want_proved "two starts at once" leaf $((leaf + 3))
# Where the kit has its parts at other places, or its prover takes other words, rt builds the program.
mv "$work/bin/rattle" "$work/elsewhere" && echo elsewhere >"$tree/$code/lib.rt"
want "a kit with its parts at other places" 18
printf '#!/bin/sh\nexit 2\n' >"$work/bin/rattle" && chmod +x "$work/bin/rattle" && echo strange >"$tree/$code/lib.rt"
want "a kit whose prover takes other words" 19
mv "$work/elsewhere" "$work/bin/rattle"
said="$("$tree/clnp" --version 2>"$work/errors" | tail -n 1)"
[ "$said" = "proved by a stand-in" ] || wrong "the version of the proved program says '$said'"
# Without a proved program input, output, status and standard error are passed through, and what can't be done so is refused.
echo unproved >"$tree/$code/lib.rt"
said="$(printf 'in\n' | "$tree/clnp" copy 2>"$work/errors")"
[ "$said" = in ] || wrong "unproved: standard input isn't passed through"
"$tree/clnp" fail >"$work/said" 2>"$work/errors"
status=$?
if [ "$status" -ne 3 ] || [ -s "$work/said" ] || [ "$(tail -n 1 "$work/errors")" != "clnp: bad words at 0" ]; then
    wrong "unproved: ended with $status and not 3"
fi
for word in run long; do
    "$tree/clnp" "$word" >"$work/said" 2>"$work/errors"
    status=$?
    if [ "$status" -ne 70 ] || [ -s "$work/said" ] || ! grep -q "clnp prove" "$work/errors"; then
        wrong "unproved: \`$word\` ended with $status"
    fi
done
said="$("$tree/clnp" --version 2>"$work/errors" | tail -n 1)"
[ "$said" = "not proved" ] || wrong "the version of what isn't proved says '$said'"
# A program whose sources changed isn't run either where it can't be built.
rm "$work/bin/rt" && echo last >"$tree/$code/lib.rt"
if command -v rt >/dev/null; then
    PATH="$(printf '%s' "$PATH" | tr ':' '\n' | while read -r folder; do [ -x "$folder/rt" ] || printf '%s:' "$folder"; done)"
fi
said="$("$tree/clnp" 2>"$work/errors")"
status=$?
if [ "$status" -ne 70 ] || [ -n "$said" ] || ! grep -q "there is no command rt" "$work/errors"; then
    echo "without the kit: said '$said', ended with $status" >&2
    failed=1
fi
if [ "$failed" -eq 0 ]; then
    echo "clnp: each of its starts ran the proved program of the sources that were there, or said that it isn't proved"
fi
exit "$failed"
