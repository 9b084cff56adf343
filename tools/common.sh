# What check, steps, table, package and tools/build share; sourced by them, with `here` set to the folder that has them. POSIX sh.
name=${0##*/}
nl='
'
# A closed pipe is then a write that fails, as a full disk is.
trap '' PIPE

say() {
    printf '%s\n' "$name: $*" >&2
}

stop() {
    say "$*"
    exit 3
}

# Prints its first argument on standard output, or says that it cannot.
put() {
    printf '%s\n' "$1" 2> /dev/null || stop 'standard output cannot be written'
}

# The first line of a file of this folder.
pinned() {
    head -n 1 "$here/$1" 2> /dev/null || printf 'unknown\n'
}

version() {
    put "weldporch $(pinned VERSION), proved by $(pinned KIT)"
}

needs_python() {
    command -v python3 > /dev/null 2>&1 || stop "$1 needs python3, and python3 is not on the path"
}

# The crates that the named ones stand on, these included, out of crates.txt; the kit's own are left out.
crates_below() {
    awk -v wanted="$*" '
        { sub(/#.*/, "") }
        /:/ {
            crate = $1
            sub(/:.*/, "", crate)
            sub(/^[^:]*:/, "")
            below[crate] = $0
            names[++count] = crate
        }
        END {
            n = split(wanted, todo, " ")
            while (n > 0) {
                crate = todo[n--]
                if (!(crate in below) || crate in needed)
                    continue
                needed[crate] = 1
                m = split(below[crate], more, " ")
                for (i = 1; i <= m; i++)
                    todo[++n] = more[i]
            }
            for (i = 1; i <= count; i++)
                if (names[i] in needed)
                    print names[i]
        }' "$here/crates.txt"
}

# The sources, specs and proofs of these crates, and crates.txt, that are newer than the file $1.
newer_than() {
    product=$1
    shift
    set -- $(crates_below "$@")
    for crate; do
        shift
        set -- "$@" "$here/crates/$crate"
    done
    find "$here/crates.txt" "$@" -type f \( -name '*.rt' -o -name '*.antt' -o -name crates.txt \) -newer "$product" 2> /dev/null
}

# Prints how far the build in the log $1 is, of $2 crates, each second until the shell that builds has ended or is done.
progress() {
    seconds=0
    while sleep 1 && kill -0 "$$" 2> /dev/null; do
        seconds=$((seconds + 1))
        done_crates=$(grep -c '^logic=proved ' "$1" 2> /dev/null)
        printf '\r%s: building: crate %s of %s, %s s ' "$name" "$((done_crates < $2 ? done_crates + 1 : $2))" "$2" "$seconds" >&2
    done
}

# build FILE WHY CRATE WORDS..: has rt make FILE, by `rt WORDS` in the crate's folder, which leaves it in the crate's out/; stops where it cannot.
build() {
    product=$1 why=$2 crate=$3
    shift 3
    command -v rt > /dev/null 2>&1 ||
        stop "$why, and rt is not on the path: it is the prover of the kit $(pinned KIT) (README, The kit)"
    log=$here/target/build.log
    mkdir -p "$here/target" 2> /dev/null
    (: >> "$log") 2> /dev/null || stop "$why, and $here/target may not be written"
    # One build at a time, where there is flock; who had to wait looks again.
    exec 9>> "$log"
    if command -v flock > /dev/null 2>&1 && ! flock -n 9; then
        say "$why, and another call is building: waiting for it"
        flock 9
        if [ -f "$product" ] && [ -z "$(newer_than "$product" "$crate")" ]; then
            exec 9>&-
            return
        fi
    fi
    : > "$log"
    count=$(crates_below "$crate" | wc -l)
    say "$why: proving and building $((count)) crates, some minutes; log: $log"
    kit=$(rt version 2> /dev/null)
    [ "$kit" = "$(pinned KIT)" ] || say "the kit here is '$kit', the repository is made for '$(pinned KIT)'"
    began=$(date +%s)
    : > "$here/target/build.began"
    monitor=
    if [ -t 2 ]; then
        progress "$log" "$((count))" 9>&- &
        monitor=$!
        trap 'kill "$monitor" 2> /dev/null; exit 3' INT TERM HUP
    fi
    (cd "$here/crates/$crate" && exec rt "$@") < /dev/null > "$log" 2>&1 9>&-
    ended=$?
    if [ -n "$monitor" ]; then
        kill "$monitor" 2> /dev/null
        wait "$monitor" 2> /dev/null
        trap - INT TERM HUP
        printf '\r' >&2
    fi
    made=$here/crates/$crate/out/${product##*/}
    [ "$ended" -eq 0 ] && [ -f "$made" ] ||
        stop "not built, after $(($(date +%s) - began)) s: $(tail -n 1 "$log"); log: $log"
    mkdir -p "${product%/*}" 2> /dev/null
    cp "$made" "$product.new" 2> /dev/null && mv -f "$product.new" "$product" || stop "$product cannot be written"
    # Not later than the sources were read: an edit made meanwhile counts as newer.
    touch -r "$here/target/build.began" "$product"
    exec 9>&-
    say "built in $(($(date +%s) - began)) s"
}

# made CRATE: the crate's program or static library is there, and no older than what it is made of, or is made. In a package there are no sources. In a
# shell of its own, so that no name of the caller's changes; its status is 3 where it stops. rt builds a program by running it once.
made() (
    crate=$1
    case $crate in
    station_check) product=target/bin/$crate && set -- run ;;
    station_steps) product=target/bin/$crate && set -- run -- ../../examples/smallest.table /dev/null ;;
    *) product=target/staticlib/lib$crate.a && set -- lib ;;
    esac
    product=$here/$product
    if [ ! -f "$product" ]; then
        [ -f "$here/crates.txt" ] || stop "$product is missing"
        build "$product" "${product#"$here/"} is not built" "$crate" "$@"
    elif [ -f "$here/crates.txt" ]; then
        newer=$(newer_than "$product" "$crate")
        newer=${newer%%"$nl"*}
        [ -z "$newer" ] || build "$product" "${product#"$here/"} is older than ${newer#"$here/"}" "$crate" "$@"
    fi
)

# Reads standard input, at most $1 bytes, for the command behind it, and prints what it prints and then `end` and its status; or says
# `unread` first. So a read that fails, an output cut off and a program that died are told from an answer.
answered() {
    most=$1
    shift
    {
        { head -c "$most" 2> /dev/null || printf 'unread\n' >&3; } | "$@"
        printf 'end %s\n' "$?"
    } 3>&1
}

# can_read FILE: or says why not.
can_read() {
    if [ -d "$1" ]; then say "$1 is a directory"
    elif [ ! -e "$1" ]; then say "there is no file $1"
    elif [ ! -r "$1" ]; then say "$1 may not be read"
    else return 0; fi
    return 3
}

# A line of the table's form: 48 characters, of which each is a digit, a space or a minus sign.
is_line() {
    [ "${#1}" -eq 48 ] || return 1
    case $1 in *[!0-9\ -]*) return 1 ;; esac
}
