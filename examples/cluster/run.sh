#!/usr/bin/env bash
# Starts a cache of several shards on this machine, and shows what its clients see where one dies:
# run.sh [--shards N] [--memory SIZE] [--far DIR] [--port P] [--calls N] [--stay]
#
# Each of N farserve, 4 if not given, has SIZE of memory (64m) and scratch files in a new folder below DIR (/var/tmp). nutcracker
# stands before them at port P (22121), with the settings of nutcracker.yml; P + 1 has its statistics, and the shards have the ports
# behind. redis-benchmark makes N calls of each command (200000). With --stay nothing is shown: a line tells how each shard was
# started, and after the line `ready ADDRESS` the cache is there until SIGTERM or SIGINT. What was started ends with this script.
#
# Statuses: 0 after all was shown, 1 where something failed, 2 for wrong words, 3 where a program is missing, or farserve's.
set -euo pipefail

here=$(dirname "$(readlink -f "${BASH_SOURCE[0]}")")
root=$(dirname "$(dirname "$here")")
shards=4 memory=64m far=/var/tmp port=22121 calls=200000 stay=

usage() {
    echo 'usage: run.sh [--shards N] [--memory SIZE] [--far DIR] [--port P] [--calls N] [--stay]' >&2
    exit 2
}

fail() {
    echo "run.sh: $1" >&2
    exit "${2:-1}"
}

# is_number WORD LEAST MOST
is_number() { [[ $1 =~ ^[1-9][0-9]{0,8}$ ]] && [ "$1" -ge "$2" ] && [ "$1" -le "$3" ]; }

while [ $# -gt 0 ]; do
    if [ "$1" = --stay ]; then
        stay=1
        shift
        continue
    fi
    [ $# -gt 1 ] || usage
    case "$1" in
    --shards) shards=$2 ;;
    --memory) memory=$2 ;;
    --far) far=$2 ;;
    --port) port=$2 ;;
    --calls) calls=$2 ;;
    *) usage ;;
    esac
    shift 2
done
if ! is_number "$shards" 1 64 || ! is_number "$port" 1 $((65534 - shards)) || ! is_number "$calls" 1 999999999; then usage; fi
[ -d "$far" ] || fail "no folder $far" 2
for needed in nutcracker:nutcracker redis-cli:redis-tools redis-benchmark:redis-tools; do
    command -v "${needed%:*}" >/dev/null || fail "needs ${needed%:*}: apt-get install ${needed#*:}" 3
done
"$root/bin/build" farserve >/dev/null

work=$(mktemp -d "$far/cluster-XXXXXX")
# The pipes of a killed farserve stay until the next start, and so are to lie where all is removed.
export XDG_RUNTIME_DIR=$work

# Whether a process is there that has not ended.
is_alive() { [[ $(cat "/proc/$1/stat" 2>/dev/null) =~ \)\ [^ZX] ]]; }

# Ends what was started, and removes what it left. One that was just forked may miss a signal, so it has some, and at last SIGKILL. A farserve
# takes a second one as soon after the first as one with it, and ends within 10 seconds; a later one kills it.
leave() {
    local name process running
    trap '' INT TERM
    for name in {1..200} KILL; do
        running=()
        for process in $(jobs -p); do
            if is_alive "$process"; then running+=("$process"); fi
        done
        if [ "${#running[@]}" -eq 0 ]; then break; fi
        case "$name" in
        1 | 2 | 12[0-9]) kill -TERM "${running[@]}" 2>/dev/null || true ;;
        KILL) kill -KILL "${running[@]}" 2>/dev/null || true ;;
        esac
        sleep 0.1
    done
    rm -rf "$work"
}
trap leave EXIT
trap 'exit 130' INT
trap 'exit 143' TERM

is_open() { (exec 3<>"/dev/tcp/127.0.0.1/$1") 2>/dev/null; }

port_of() { echo $((port + 1 + $1)); }

# Has `words` start a shard.
choose() { words=("$root/bin/farserve" --memory "$memory" --far "$work/far$1" --port "$(port_of "$1")"); }

# Starts a shard, and waits until clients may come.
start_shard() {
    local shard=$1 words status=1
    choose "$shard"
    : >"$work/ready$shard"
    "${words[@]}" >"$work/ready$shard" 2>"$work/said$shard" &
    processes[shard]=$!
    until grep -q '^ready ' "$work/ready$shard"; do
        if ! kill -0 "${processes[shard]}" 2>/dev/null; then
            wait "${processes[shard]}" || status=$?
            fail "shard $shard: $(tail -n 1 "$work/said$shard")" "$status"
        fi
        sleep 0.05
    done
}

# Kills both programs of a shard and what started them, and waits until nobody listens at its port.
kill_shard() {
    local process=${processes[$1]} parts
    read -r -a parts <<<"$(cat "/proc/$process/task/$process/children")"
    # The two end with what started them, perhaps before they are told to.
    kill -KILL "$process" "${parts[@]}" 2>/dev/null
    wait "$process" 2>/dev/null || true
    while is_open "$(port_of "$1")"; do sleep 0.05; done
}

start_proxy() {
    local proxy shard
    sed -e "s/^  listen:.*/  listen: 127.0.0.1:$port/" -e '/^  servers:/q' "$here/nutcracker.yml" >"$work/nutcracker.yml"
    for shard in $(seq "$shards"); do
        echo "    - 127.0.0.1:$(port_of "$shard"):1 shard$shard" >>"$work/nutcracker.yml"
    done
    nutcracker --conf-file "$work/nutcracker.yml" --stats-addr 127.0.0.1 --stats-port $((port + 1)) 2>"$work/said" &
    proxy=$!
    until [ "$(redis-cli -p "$port" ping 2>/dev/null)" = PONG ]; do
        kill -0 "$proxy" 2>/dev/null || fail "nutcracker: $(tail -n 1 "$work/said")"
        sleep 0.05
    done
}

# Gives a line for each line of words from standard input, which go to a port one after another.
ask() { redis-cli --no-raw -p "$1"; }

# Gives those of the keys in the file that the shard has: held_by SHARD
held_by() { sed 's/^/EXISTS /' "$work/keys" | ask "$(port_of "$1")" | paste "$work/keys" - | sed -n 's/\t(integer) 1$//p'; }

# Sets the keys from standard input, and tells how often each reply came.
set_keys() { sed 's/.*/SET & value-of-&/' | ask "$port" | sort | uniq -c | awk '{ $1 = $1 " times"; print "   ", $0 }'; }

# Gets the keys of a file, and tells how often each reply came. Fails where a value is another key's, or none that was set.
get_keys() {
    sed 's/^/GET /' "$1" | ask "$port" | paste "$1" - | awk -F '\t' '
        { told = $2 == "\"value-of-" $1 "\"" ? "its value" : $2 }
        told !~ /^(its value|\(nil\)|\(error\) .*)$/ { told = "WRONG: " told; wrong = 1 }
        !(told in count) { order[++kinds] = told }
        { count[told]++ }
        END { for (at = 1; at <= kinds; at++) print "    " count[order[at]] " times " order[at]; exit wrong }'
}

# Sets a key again and again until the shard has it: waits until nutcracker asks the shard again.
await_shard() {
    local shard=$1 key=$2
    for _ in {1..300}; do
        echo "SET $key value-of-$key" | ask "$port" >/dev/null
        if [ "$(echo "EXISTS $key" | ask "$(port_of "$shard")")" = '(integer) 1' ]; then return; fi
        sleep 0.1
    done
    fail "nutcracker does not ask shard $shard again"
}

# Tells the calls a second of redis-benchmark, which a signal ends at once as it is waited for like the shards.
measure() {
    redis-benchmark -p "$port" -t set,get -n "$calls" -c 50 -P 16 -d 64 -r 100000 --csv >"$work/rates" 2>"$work/told" &
    wait $!
    awk -F '"' '
        $4 + 0 > 0 { rates = rates (told++ ? ", " : "") $2 " " int($4) }
        END { print "calls a second, by 50 connections with pipelines of 16 and values of 64 bytes: " rates; exit told != 2 }
    ' "$work/rates"
}

show() {
    local victim=$shards key shard
    measure

    seq 1000 | sed 's/^/name/' >"$work/keys"
    echo '1000 keys are set:'
    set_keys <"$work/keys"
    for shard in $(seq "$shards"); do echo "    shard $shard has $(held_by "$shard" | wc -l)"; done
    held_by "$victim" >"$work/its"
    grep -vxFf "$work/its" "$work/keys" >"$work/others" || true
    key=$(head -n 1 "$work/its")

    kill_shard "$victim"
    echo "shard $victim is killed; its keys are got, one after another:"
    get_keys "$work/its"
    echo 'the keys of the others are got:'
    get_keys "$work/others"
    echo "$key, a key of shard $victim, is set and got:"
    echo "SET $key value-of-$key" | ask "$port" | sed 's/^/    /'
    echo "GET $key" | ask "$port" | sed 's/^/    /'

    start_shard "$victim"
    echo "shard $victim is started again, with nothing in it"
    await_shard "$victim" "$key"
    echo 'nutcracker asks it again, and one of its keys is set; its keys are got:'
    get_keys "$work/its"
    echo 'they are set anew:'
    set_keys <"$work/its"
    echo "shard $victim has $(held_by "$victim" | wc -l); all keys are got:"
    get_keys "$work/keys"
}

for taken in $(seq "$port" $((port + 1 + shards))); do
    if is_open "$taken"; then fail "port $taken is taken"; fi
done
processes=()
for shard in $(seq "$shards"); do
    mkdir "$work/far$shard"
    start_shard "$shard"
done
start_proxy
if [ -n "$stay" ]; then
    for shard in $(seq "$shards"); do
        choose "$shard"
        echo "shard $shard: ${words[*]}, process ${processes[shard]}"
    done
    echo "ready 127.0.0.1:$port"
    wait
    fail 'all of it has ended'
fi
echo "$shards farserve with $memory each, and nutcracker at 127.0.0.1:$port"
show
