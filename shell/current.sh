# shellcheck shell=sh
# Whether what was built is of the sources as they are. onuctl, prove, build-library and timings/build source this file.
#
# What was built is a file in a folder `out`, and stands beside what was noted of it:
#   sums     the sums of what it was built of, as ./prove took them. After the gate there are none
#   names    what the last look went over, and
#   listed   the size and the time of each of these then
# A proof that changes changes nothing of what is built, nor of what was proved of it: what counts are code and definitions.

# Writes the sums of crates.txt and of the crates that are named on standard input. It is called in the folder of the repository.
sum_sources() {
    sha256sum crates.txt && while read -r crate; do
        [ ! -d "crates/$crate" ] || find "crates/$crate" \( -path '*/src/*' -o -path '*/specs/*' \) -type f ! -path '*/out/*' \
            -exec sha256sum {} +
    done
}

# Whether a file is there, and no other file, nor any in other folders, is newer.
is_newest() {
    made=$1
    shift
    [ -e "$made" ] && ! find "$@" -type f -newer "$made" | grep -q .
}

# The size and the time of each file that a look went over, which are named in a folder `out`.
list_files() {
    xargs stat -c '%s %.Y %n' < "$1/names"
}

# Notes what a look at a file in a folder `out` went over, where the folder can be written: that file, lest another build of it passes for
# this one, and the sources.
note_look() {
    {
        echo "$1/$2"
        if [ -e "$1/sums" ]; then
            cut -c 67- "$1/sums"
        else
            find crates.txt crates/*/src crates/*/specs -type f
        fi
    } > "$1/names" && list_files "$1" > "$1/listed"
}

# Whether a file in a folder `out` of the repository was built of the sources as they are: is_current TOP OUT FILE.
# Their sizes and times show that none has changed since the last look; a source that came since would be named by one that changed.
# Where they differ, as in a copy, the sums decide; without these no source may be newer than the file.
is_current() (
    CDPATH='' cd -- "$1" && [ -e "$2/$3" ] || return
    [ -s "$2/names" ] && list_files "$2" 2> /dev/null | cmp -s - "$2/listed" && return
    if [ -e "$2/sums" ]; then
        sha256sum --check --status "$2/sums" || return
    else
        is_newest "$2/$3" crates.txt crates/*/src crates/*/specs || return
    fi
    note_look "$2" "$3" 2> /dev/null || true
)
