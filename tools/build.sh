# Builds the program $name, which proves every crate that it stands on; ./stk reads this where it isn't up to
# date.
#
# The program's crates are copied, without their edits, to a folder of their own: a repository in which the
# gate's command `rt ci` proves them, several at a time, builds the program, and runs it on its example. What
# it proved some kits keep, and a later build then finds it.

# Ends what runs, removes the copy, and stops with the status $1.
end_build() {
    trap '' HUP INT TERM
    [ -z "$prover" ] || kill "$prover" 2>/dev/null
    wait
    rm -rf "$room" || { sleep 1 && rm -rf "$room"; }
    exit "$1"
}

# The lines of crates.txt for the program and the crates that it stands on.
lines_of_program() {
    awk -v program="$name" '!/^#/ && NF { crate = $1; sub(/:$/, "", crate); lines[crate] = $0 }
        function need(crate) {
            if (crate in lines && !(crate in needed)) needed[crates[++count] = crate]
        }
        END {
            need(program)
            for (i = 1; i <= count; i++) {
                print lines[crates[i]]
                words = split(lines[crates[i]], named)
                for (j = 2; j <= words; j++) need(named[j])
            }
        }' "$here/crates.txt"
}

# Copies the program's crates to a repository of their own.
copy_crates() {
    mkdir -p "$copy/.git" && cp "$here/HANDLES" "$copy" && lines_of_program >"$copy/crates.txt" || return
    while IFS=': ' read -r crate _; do
        mkdir -p "$copy/crates/$crate" || return
        for part in "$here/crates/$crate"/*; do
            case ${part##*/} in out | must-fail) continue ;; esac
            cp -R "$part" "$copy/crates/$crate" || return
        done
    done <"$copy/crates.txt"
}

# Tells of what rt says each crate that it proved, with how many are left and since when, and its notes. The
# first crate that isn't proved ends the build.
tell() {
    while read -r by crate what more; do
        case $by,$crate,$what in
            rt:,note:,*) echo "$name: note: $what $more" >&2 ;;
            rt:,*,is) left=$((left - 1)) ;;
            rt:,*,proved)
                left=$((left - 1))
                echo "$name: $(date +%H:%M) $crate, $left left since $begun" >&2
                ;;
            rt:,*,NOT) kill "$prover" ;;
        esac
    done
}

# Shows the end of what rt said of what could not be proved or built, and ends the build.
end_failed() {
    log=$out/build.log
    mv -f "$room/log" "$log"
    failed=$(sed -n 's/^rt: \([a-z0-9_]*\).* NOT PROVED.*/\1/p' "$log" | head -n 1)
    sed '/^statements /d; /^rt: .* NOT PROVED/q' "$log" | tail -n 20 >&2
    echo "$name: ${failed:-$name} could not be built; all that the build said of it is in $log" >&2
    end_build 126
}

# Proves what has to be proved, builds the program, and notes what it was made from.
build() {
    needs_kit
    begun=$(date +%H:%M)
    prover=
    mkdir -p "$out" && [ -w "$out" ] || stop "can't write in $out"
    room=$(mktemp -d "${TMPDIR:-/var/tmp}/$name.XXXXXX") || stop "can't make a folder"
    trap 'end_build 130' HUP INT TERM
    files crates.txt HANDLES crates >"$room/files"
    copy=$room/copy
    copy_crates && mkdir "$room/tmp" || end_build 126
    left=$(wc -l <"$copy/crates.txt")
    long=
    [ -f "$built" ] || [ "$name" != stk ] || long='; a first build may take an hour'
    echo "$name: proving the $left crates of the program, but for those that are proved already$long" >&2
    # (as root, rt runs a program as nobody, below its folder for temporary files)
    chmod 711 "$room"
    : >"$room/log"
    (cd "$copy" && exec env TMPDIR="$room/tmp" rt ci) >"$room/log" 2>&1 &
    prover=$!
    tail -n +1 -f --pid="$prover" "$room/log" | tell &
    wait "$prover" 2>/dev/null || end_failed
    prover=
    wait
    mv -f "$room/log" "$out/build.log"
    cp "$copy/crates/$name/out/$name" "$out/$name.$$" && mv -f "$out/$name.$$" "$out/$name" &&
        files "crates/$name/out/$name" | cat "$room/files" - >"$built" || end_build 126
    rm -rf "$room"
    trap - HUP INT TERM
}
