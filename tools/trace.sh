# To be sourced: the files of a trace, plain or packed by xz. Functions: frames_of TRACE [FRAMES]; unpacked FILE.

frames_of() { # the frames' name: the one that is given, or the one beside the trace
    if [ $# -eq 2 ]; then
        echo "$2"
        return
    fi
    trace_base=${1%.xz}
    trace_base=${trace_base%.trace}.frames
    for trace_file in "$trace_base" "$trace_base.xz"; do
        [ ! -f "$trace_file" ] || { echo "$trace_file"; return; }
    done
    echo "no frames: neither $trace_base nor $trace_base.xz is there" >&2
    return 2
}

unpacked() {
    case $1 in
        *.xz)
            command -v xz >/dev/null || apt-get install -y -q xz-utils >/dev/null || { echo "xz is not there (Debian: xz-utils)" >&2; return 2; }
            xz -dc "$1" ;;
        *) cat "$1" ;;
    esac
}
