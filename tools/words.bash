# The words of the scripts of bash that this is read into: the comment at a script's head is its page.

# take_words STATUS MOST WORD..: prints the page where it is asked for, and ends with 0; where there are
# more words than so many, or the first is an option, it ends with this status and the page on standard
# error.
take_words() {
    local status=$1 most=$2 page
    shift 2
    page=$(sed -n '2,/^[^#]/s/^# \{0,1\}//p' "$0")
    case ${1-} in
    --help | -h) printf '%s\n' "$page" && exit ;;
    esac
    [[ $# -le $most && ${1-} != -* ]] || { printf '%s\n' "$page" >&2 && exit "$status"; }
}
