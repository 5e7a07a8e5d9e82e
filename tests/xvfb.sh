# For tests on a display, which read this by `.`: packages, and an Xvfb of the test's own.

# Installs Debian's packages, quietly and where this user may. Where it can't, the last line of FOLDER/apt says why.
#   get FOLDER PACKAGE ..
get() {
    local folder=$1
    shift
    if [ "$(id -u)" != 0 ] || ! command -v apt-get > /dev/null; then
        echo "only root may, where there is apt-get: apt-get install $*" > "$folder/apt"
        return 1
    fi
    local install=(timeout 120 apt-get install -y --no-install-recommends "$@")
    export DEBIAN_FRONTEND=noninteractive
    "${install[@]}" < /dev/null > "$folder/apt" 2>&1 ||
        { timeout 120 apt-get update > /dev/null 2>&1 && "${install[@]}" < /dev/null > "$folder/apt" 2>&1; }
}

# Starts Xvfb on a free display, with these further words, and waits until it says which: then `server` is its process and
# DISPLAY its display. Where it does not start, the last line of FOLDER/log says why.
#   xvfb FOLDER [WORD ..]
xvfb() {
    local folder=$1
    shift
    rm -f "$folder/number"
    Xvfb "$@" -displayfd 3 -screen 0 800x600x24 -nolisten tcp -noreset 3> "$folder/number" > "$folder/log" 2>&1 &
    server=$!
    for _ in $(seq 100); do
        [ ! -s "$folder/number" ] || break
        kill -0 "$server" 2> /dev/null || break
        sleep 0.1
    done
    [ -s "$folder/number" ] || return
    DISPLAY=:$(cat "$folder/number")
    export DISPLAY
}
