#!/bin/sh
# When `nbody` runs the kept program, when another, and when it has one built, and when .ci/release.sh passes: with scripts in
# place of programs and of rt, over one file of each kind that a program is built from. Nothing is proved.
top=$(CDPATH='' cd -- "$(dirname -- "$0")/.." && pwd) || exit 1
work=$(mktemp -d) || exit 1
trap 'rm -rf "$work"' EXIT
copy=$work/copy
kept=$copy/release/nbody-x86_64-linux
built=$copy/crates/nbody/out/nbody
sources="crates.txt HANDLES crates/nbody/src/main.rt crates/nbody/specs/Main.antt crates/nbody/proofs/Main.antt"
mkdir -p "$copy/.ci" "$copy/release" "$copy/crates/nbody/out" "$copy/crates/nbody/src" "$copy/crates/nbody/specs" \
    "$copy/crates/nbody/proofs" "$work/bin" "$work/a folder" || exit 1
{ cp "$top/nbody" "$copy/" && cp "$top/release/sums" "$top/release/refresh" "$copy/release/" &&
    cp "$top/.ci/release.sh" "$copy/.ci/"; } || exit 1
for file in $sources; do
    echo "$file" >"$copy/$file"
done
PATH=$work/bin:$PATH

# Writes a program that says its name, its folder and its words, and ends with status 7.
write_program() {
    # shellcheck disable=SC2016
    printf '#!/bin/sh\necho "%s in $(pwd):" "$@"\nexit 7\n' "$2" >"$1" && chmod +x "$1"
}

# What `nbody` says and its status have to be these.
expect() {
    said=$(cd "$work/a folder" && "$copy/nbody" 'two words' '' 2>&1)
    status=$?
    if [ "$status" != "$1" ] || ! printf '%s\n' "$said" | grep -qxF "$2" ||
        { [ "$1" = 7 ] && [ "$(printf '%s\n' "$said" | wc -l)" -ne 1 ]; }; then
        printf '%s\n' "$said"
        echo "kept program: $3: status $status, and not $1 with the line: $2"
        exit 1
    fi
}

kept_runs() {
    expect 7 "kept in $work/a folder: two words " "$1"
}

# rt is called, and builds nothing.
is_built_for() {
    expect 70 "rt run in $copy/crates/nbody" "$1"
}

cat >"$work/bin/rt" <<'RT'
#!/bin/sh
if [ "$1" = version ]; then echo 'a kit'; else echo "rt $1 in $(pwd)"; fi
RT
chmod +x "$work/bin/rt"
write_program "$work/program" kept
is_built_for "there is no kept program"
"$copy/release/refresh" "$work/program" >/dev/null || exit 1
kept_runs "all is as it was kept"
ln -s "$copy/nbody" "$work/bin/linked" && (cd "$work/a folder" && "$work/bin/linked" | grep -q '^kept in') || exit 1
(cd "$copy/release" && sha256sum -c --status SHA256SUMS) || exit 1

for file in $sources; do
    cp -p "$copy/$file" "$work/was"
    sed 's/^./?/' "$work/was" >"$copy/$file"
    touch -r "$work/was" "$copy/$file"
    is_built_for "$file has another byte, and the length and time that it had"
    rm "$copy/$file"
    is_built_for "$file is removed"
    cp -p "$work/was" "$copy/$file"
done
echo more >"$copy/crates/nbody/src/more.rt"
is_built_for "there is one more source"
mv "$copy/crates/nbody/src/more.rt" "$copy/crates/nbody/out/"
kept_runs "there is one more file in out/, and none else"

sed -i 's/exit 7/exit 6/' "$kept"
is_built_for "the kept program has another byte"
cp "$work/program" "$kept"
mv "$copy/release/SHA256SUMS" "$work/"
is_built_for "there are no checksums"
mv "$work/SHA256SUMS" "$copy/release/"
printf '#!/bin/sh\necho Linux aarch64\n' >"$work/bin/uname" && chmod +x "$work/bin/uname"
is_built_for "the machine is another"
rm "$work/bin/uname"
kept_runs "all is again as it was kept"

write_program "$built" built
expect 7 "built in $work/a folder: two words " "the program is built here"
touch -d '1 hour ago' "$built"
kept_runs "the program that is built here is older than a source"
if "$copy/release/refresh" >/dev/null 2>&1; then
    echo "kept program: one that is older than a source is kept"
    exit 1
fi

# .ci/release.sh has to pass, or to fail with this line.
gate() {
    said=$("$copy/.ci/release.sh" 2>&1)
    if ! printf '%s\n' "$said" | grep -q "^release: $1"; then
        printf '%s\n' "$said"
        echo "kept program: .ci/release.sh doesn't say: $1"
        exit 1
    fi
}

gate "release/nbody-x86_64-linux isn't the program that was proved and built"
touch "$built"
"$copy/release/refresh" >/dev/null || exit 1
gate 'the kept program is the one that was proved and built'
echo more >>"$copy/HANDLES"
gate "release/SHA256SUMS doesn't say this program, these files and this kit"
rm "$built"
gate 'rt ci left no program'
echo "kept program: it runs where it and all that it was built from are unchanged, and nowhere else"
