# A server of a library, for the scripts that need one. Bash sources it; `program` is what is run.

server=http://127.0.0.1:8330
pid=

# Whether something listens at the port (0x208A), which is not asked.
port_is_held() { grep -Eq ' [0-9A-F]{8}:208A [0-9A-F]{8}:0000 0A ' /proc/net/tcp; }

# Ends the script where another program holds the port. It stays as it is.
need_port() {
    if port_is_held; then
        echo 'port 8330 is held by another program. In a network of its own a script has a port of its own:' >&2
        echo "    unshare -rn sh -c 'ip link set lo up; exec bash $0'" >&2
        exit 2
    fi
}

# Starts a server in a folder, with these words behind those of `serve`, and waits until it listens. Its own
# line says so: what answers at the port might be another's.
start() {
    local i
    mkdir -p "$1" && cd "$1" || exit 1
    shift
    # the line of a server before this one must not be read
    rm -f faults
    "$program" serve --connections 65535 "$@" >>lines 2>faults </dev/null &
    pid=$!
    for ((i = 0; i < 6000; i++)); do
        grep -qs '^loudlib: listening' faults && return
        kill -0 "$pid" 2>/dev/null || break
        sleep 0.01
    done
    echo 'the server does not start:' >&2
    cat faults >&2
    exit 1
}

# Ends it by this signal. What it said of faults stays.
stop() {
    kill "-$1" "$pid"
    wait "$pid" 2>/dev/null || true
    pid=
    cat faults >>all-faults
}
