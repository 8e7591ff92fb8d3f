# What `record`, `pti` and `library` share, sourced by each: on first use, and after a change, they prove and build what they run or
# hand out. What is said of that goes to standard error; standard input is left alone. They set me, their name, and top, the
# repository.

pid='' room='' line=''

say() { printf '%s: %s\n' "$me" "$*" >&2; }
die() { say "$*"; exit 2; }

# ---- what it takes

installs() { # TOOL
    case $1 in
        rt) echo "it comes with the Rattle kit; put the kit's folder bin on the PATH" ;;
        cargo | rustc) echo "https://rustup.rs installs it, and so does, from Debian 13 on, Debian's package $1" ;;
        cc) echo "Debian's package gcc installs it; Rust links with it" ;;
    esac
}

# Names every tool that is missing, before any work starts.
needs() { # TOOL...
    missing=0
    for tool; do
        command -v "$tool" > /dev/null && continue
        say "$tool is not on the PATH: $(installs "$tool")"
        missing=1
    done
    [ $missing -eq 0 ] || exit 2
}

# Is the file whole, and newer than all that it is made of? All are named as they stand in the repository. What rt keeps in a
# crate's out/ is no source, and neither is the crate's own folder, whose time changes when rt makes or removes out/.
current() ( # FILE SOURCE...
    made=$1
    shift
    cd "$top" && [ -e "$made" ] && [ ! -e "$made.begun" ] && [ -z "$(find "$@" -path 'crates/*/out' ! -path 'crates/*/*/out' -prune \
        -o ! \( -type d -path 'crates/*' ! -path 'crates/*/*' \) -newer "$made" -print | head -n 1)" ]
)

# ---- what runs

# One set-up at a time: in `./pti ... | ./pti ...` both would write the same files.
alone() {
    mkdir -p "$top/target" && exec 9> "$top/target/setup.lock" || exit 2
    if ! flock -n 9; then
        say "waiting for another set-up to end"
        flock 9 & pid=$!
        ended
    fi
    room=$(mktemp -d) || exit 2
}

# Starts a command in the repository, in a process group of its own, so that a signal to this script ends all of it, and only here.
start() { # LOG COMMAND...
    out=$1
    shift
    (cd "$top" && exec env TMPDIR="$room" setsid "$@") < /dev/null >> "$out" 2>&1 9>&- &
    pid=$!
}

ended() {
    wait "$pid"
    status=$?
    pid=''
    return $status
}

# Ends what is under way and removes what it left. This is for the traps, and the end of every set-up.
stop() {
    if [ -n "$pid" ]; then
        trap '' HUP INT PIPE TERM
        { kill -- "-$pid" "$pid"; wait "$pid"; } 2> /dev/null
        end_line
        say "set-up was interrupted; the next run goes on from here"
    fi
    [ -z "$room" ] || rm -rf "$room"
    pid='' room=''
    exec 9>&-
}

# Runs a function that proves and builds, and ends what is under way where a signal ends this.
set_up() { # FUNCTION
    trap stop EXIT
    # shellcheck disable=SC2064
    for signal in HUP INT PIPE TERM; do trap "interrupted $signal" $signal; done
    "$1"
    stop
    trap - EXIT HUP INT PIPE TERM
}

interrupted() { # SIGNAL
    stop
    trap - EXIT "$1"
    kill -s "$1" $$
}

# Makes a file by a command. Until it is whole there is FILE.begun beside it, whose time becomes the file's, so that an edit made
# meanwhile is newer than the file.
make_file() { # FILE COMMAND...
    file=$1
    shift
    mkdir -p "$(dirname "$file")" && : > "$file.begun" || exit 2
    "$@" && [ -e "$file" ] && touch -r "$file.begun" "$file" && rm "$file.begun"
}

# What rt and cargo say of a fault, and rt at the end of a crate that is not proved.
wrong='^error|: error|: not proved|: no proof|: failed \([0-9]'

failed() { # WHAT LOG
    say "$1 failed: see $2"
    if ! grep -qE "$wrong" "$2"; then tail -n 12 "$2"
    else grep -E -A 4 "$wrong" "$2" | grep -v ': not run, since ' | head -n 12
    fi | cut -c 1-300 >&2
    exit 2
}

# ---- how far it is

processors() { nproc 2> /dev/null || echo 1; }

# The crates that NAME needs, itself last, and about what part each has in the time: by the seconds that an older rt printed, a
# crate takes as long as src/ has bytes, with 700 for each crate that it uses and a 70th of its definitions and proofs. The crates
# of a level run side by side, as long as there are others.
plan() { # NAME
    (cd "$top/crates" && find . -path './*/out' ! -path './*/*/out' -prune \
        -o \( -path './*/src/*' -o -path './*/specs/*' -o -path './*/proofs/*' \) -type f -exec wc -c {} +) |
        awk -v wanted="$1" -v processors="$(processors)" '
        function visit(name,    used, count, i) {
            if (name in level) return
            level[name] = 0
            count = split(uses[name], used, " ")
            for (i = 1; i <= count; i++) if (used[i] in uses) {
                visit(used[i])
                time[name] += 700
                if (level[used[i]] >= level[name]) level[name] = level[used[i]] + 1
            }
            sum[level[name]] += time[name]
            if (time[name] > most[level[name]]) most[level[name]] = time[name]
            order[++needed] = name
        }
        reading == "sizes" { if (split($2, path, "/") > 2) time[path[2]] += path[3] == "src" ? $1 : $1 / 70; next }
        { sub(/#.*/, "") }
        split($0, side, ":") == 2 { split(side[1], word, " "); uses[word[1]] = side[2]; time[word[1]] += 1 }
        END {
            visit(wanted)
            for (i = 1; i <= needed; i++) {
                name = order[i]
                part = most[level[name]] / sum[level[name]]
                if (part < 1 / processors) part = 1 / processors
                print name, int(time[name] * part) + 1
            }
        }' reading=sizes - reading=crates "$top/crates.txt"
}

# Of the plan: the crates that rt has proved, and all; their part in the time so far, and what is left. rt prints a line `== NAME`
# once it is done with a crate, and below it what the check said: of a crate that has not changed since it was proved nothing but
# lines of its own, and that takes no time.
counted() { # LOG
    printf '%s\n' "$planned" | awk '
        function settle() {
            if (name in part && (verdict || !said)) {
                proved++
                left -= part[name]
                if (verdict) spent += part[name]
                delete part[name]
            }
            said = verdict = 0
        }
        reading == "plan" { part[$1] = $2; left += $2; all++; next }
        $1 == "==" { settle(); name = $2; next }
        $1 == "logic=proved" { verdict = 1 }
        $1 != "rt:" { said = 1 }
        END { settle(); print proved + 0, all + 0, spent + 0, left + 0 }' reading=plan - reading=log "$1"
}

# About how long is left (remaining), by the time that the crates so far took; nothing while that is too little to go by.
guess() { # SPENT LEFT
    if [ "$1" != "$spent" ]; then spent=$1 spent_at=$now; fi
    remaining=''
    [ $((10 * $1)) -gt "$2" ] && [ $((spent_at - began)) -ge 5 ] || return
    seconds=$(($2 * (spent_at - began) / $1 - (now - spent_at)))
    if [ $seconds -lt 45 ]; then remaining=', less than a minute left'
    elif [ $seconds -lt 90 ]; then remaining=', about a minute left'
    else remaining=", about $(((seconds + 30) / 60)) minutes left"
    fi
}

# On a terminal one line, written again; else a line for each tenth of the crates.
progress() { # PROVED ALL SPENT LEFT
    guess "$3" "$4"
    text="proving: $1 of $2 crates$remaining"
    if [ -t 2 ]; then
        line=open
        printf '\r%-66s' "$me: $text" >&2
    elif [ $((10 * $1 / $2)) -gt "$tenth" ]; then
        tenth=$((10 * $1 / $2))
        say "$text"
    fi
}

end_line() {
    [ -z "$line" ] || echo >&2
    line=''
}

# How many crates are checked at a time: JOBS, or else twice as many as there are processors, which keeps these busy while one crate
# takes long and others wait for it, as far as memory goes: rt itself, given a number, does not look at that.
at_once() {
    free=$(sed -n 's/^MemAvailable: *\([0-9]*\) kB$/\1/p' /proc/meminfo 2> /dev/null)
    room_for=$((${free:-3000000} / 3000000))
    most=$((2 * $(processors)))
    [ "$room_for" -ge "$most" ] || most=$room_for
    echo "${JOBS:-$((most > 1 ? most : 1))}"
}

# Proves the crate NAME and all that it needs, shows how far that is, and makes by rt VERB what is built of it, in its out/. `rt all`
# in the crate's folder proves these crates and no other, some at a time; rt VERB alone would prove one after the other, and
# `rt ci NAME`, which keeps what it proves for the gate, tries every edit too and builds no library.
prove() { # NAME VERB LOG
    planned=$(plan "$1") log=$3
    began=$(date +%s) shown='' spent=0 spent_at=0 tenth=0
    # shellcheck disable=SC2016
    start "$log" sh -c 'cd "crates/$1" && rt all check --jobs "$3" && exec rt "$2"' sh "$1" "$2" "$(at_once)"
    while kill -0 "$pid" 2> /dev/null; do
        sleep 0.2
        now=$(date +%s)
        [ "$now" = "$shown" ] && continue
        shown=$now
        # shellcheck disable=SC2046
        progress $(counted "$log")
    done
    ended
    status=$?
    end_line
    [ $status -ne 0 ] || say "proved: $(printf '%s\n' "$planned" | wc -l) crates, in $(($(date +%s) - began)) seconds"
    return $status
}

# ---- the library

# What C and Rust link: the static library of the crate pti_c, under the name that callers know.
proved() { current target/staticlib/libpti.a crates crates.txt; }

make_library() { # LOG
    prove pti_c lib "$1" && cp "$top/crates/pti_c/out/libpti_c.a" "$top/target/staticlib/libpti.a.new" &&
        mv -f "$top/target/staticlib/libpti.a.new" "$top/target/staticlib/libpti.a"
}

build_library() { # LOG
    make_file "$top/target/staticlib/libpti.a" make_library "$1" || failed "rt, which proves and builds the library," "$1"
}
