#!/bin/sh
# Lets `run` serve two bridges of Open vSwitch in user space, and pings over them: through the firewall of examples/ from the inside, which
# gets an answer, and from the outside, which gets one only where the inside asked before; and through the learning switch, over both
# bridges. The sessions' lines and the journal of `run` are printed, and the journal is read back with `trace`, and with `replay` over the
# bytes that the first bridge sent. Status 1 where a ping went another way than it should.
# It wants root, and of Open vSwitch 3.1 ovsdb-server, ovs-vswitchd, ovs-vsctl and ovs-ofctl; `ip` and `ping` too. All of it stands in
# name spaces of its own, and is gone at the end. OVS_SCHEMA is the schema of its database.
. "$(dirname "$0")/common.sh"
PATH=$PATH:/usr/lib/openvswitch-switch:/usr/sbin:/sbin
schema=${OVS_SCHEMA:-/usr/share/openvswitch/vswitch.ovsschema}
for tool in ovsdb-tool ovsdb-server ovs-vswitchd ovs-vsctl ovs-ofctl ip ping unshare; do
    command -v "$tool" >/dev/null || { echo "$tool is not installed"; exit 0; }
done
if [ "${1:-}" != inside ]; then
    rm -rf "$work"
    exec unshare --mount --net --pid --fork --kill-child --mount-proc env VERICON="$(realpath "$vericon")" "$(realpath "$0")" inside
fi

# ---- a machine of two bridges and four hosts; host N is 10.0.0.N, with the hardware address N
mount -t tmpfs tmpfs /run
mkdir /run/netns
export OVS_RUNDIR="$work" OVS_LOGDIR="$work" OVS_DBDIR="$work"
ip link set lo up
ovsdb-tool create "$work/conf.db" "$schema"
ovsdb-server "$work/conf.db" --remote=punix:"$work/db.sock" --detach --pidfile --log-file -vconsole:off
ovs-vsctl --no-wait init
ovs-vswitchd --detach --pidfile --log-file -vconsole:off
# bridge SWITCH
bridge() {
    ovs-vsctl add-br "br$1" -- set bridge "br$1" datapath_type=netdev fail-mode=secure protocols=OpenFlow10 \
        other-config:disable-in-band=true other-config:datapath-id="000000000000000$1"
}
# host NUMBER SWITCH PORT
host() {
    ip netns add "host$1"
    ip link add name "port$1" type veth peer name eth0 netns "host$1"
    ip -n "host$1" link set eth0 address "00:00:00:00:00:0$1"
    ip netns exec "host$1" sh -c 'echo 1 >/proc/sys/net/ipv6/conf/all/disable_ipv6'
    ip -n "host$1" addr add "10.0.0.$1/24" dev eth0
    ip -n "host$1" link set eth0 up
    echo 1 >"/proc/sys/net/ipv6/conf/port$1/disable_ipv6"
    ip link set "port$1" up
    ovs-vsctl add-port "br$2" "port$1" -- set interface "port$1" ofport_request="$3"
}
# the firewall knows of no broadcasts, so its hosts don't ask for addresses
knows() {
    ip -n "host$1" neigh replace "10.0.0.$2" lladdr "00:00:00:00:00:0$2" dev eth0
}
wrong=0
# way FROM TO answered|lost
way() {
    if ip netns exec "host$1" ping -c 3 -i 0.3 -W 1 "10.0.0.$2" >"$work/ping"; then told=answered; else told=lost; fi
    if [ "$told" = "$3" ]; then echo "host $1 to host $2: $told"; else echo "host $1 to host $2: $told, not $3"; wrong=1; fi
}
# serve PROGRAM NET: `run` for one session of each bridge; the bytes that bridge 1 sends are kept
serve() {
    "$vericon" run --workers 2 --sessions 2 --port 6633 "$1" "$2" >"$work/told" &
    served=$!
    python3 "$here/relay.py" 6634 6633 "$work/stream" &
    relay=$!
    ovs-vsctl set-controller br1 tcp:127.0.0.1:6634 -- set-controller br2 tcp:127.0.0.1:6633
    for _ in $(seq 100); do
        [ "$(ovs-vsctl get controller br1 is_connected) $(ovs-vsctl get controller br2 is_connected)" = 'true true' ] && return
        sleep 0.1
    done
    echo 'a bridge has not connected'
    exit 1
}
# finish PROGRAM NET: the bridges leave, `run` ends, and what it printed is read back
finish() {
    echo '-- rules of the first bridge'
    ovs-ofctl -O OpenFlow10 dump-flows br1 --no-stats
    ovs-vsctl del-controller br1 -- del-controller br2
    wait "$served" || { echo "run ended with status $?"; wrong=1; }
    wait "$relay"
    echo '-- run'
    cat "$work/told"
    sed -n '/^vericon-journal/,$p' "$work/told" >"$work/journal"
    echo '-- trace'
    "$vericon" trace "$1" "$2" "$work/journal" || { echo "status $?"; wrong=1; }
    session=$(sed -n 's/^join [0-9]* \([0-9]*\) 1$/\1/p' "$work/journal")
    echo "-- replay of session $session"
    "$vericon" replay "$1" "$2" "$work/journal" "$session" "$work/stream" || { echo "status $?"; wrong=1; }
}

bridge 1
bridge 2
host 1 1 1
host 2 1 2
host 3 2 1
host 4 2 2
for pair in '1 2' '2 1' '3 4' '4 3'; do knows $pair; done
echo '---- the firewall'
serve "$here/../examples/firewall_kept.csdn" "$here/../examples/firewall.net"
way 2 1 lost
way 1 2 answered
way 2 1 answered
way 4 3 lost
finish "$here/../examples/firewall_kept.csdn" "$here/../examples/firewall.net"

ip link add name link1 type veth peer name link2
for k in 1 2; do
    echo 1 >"/proc/sys/net/ipv6/conf/link$k/disable_ipv6"
    ip link set "link$k" up
    ovs-vsctl add-port "br$k" "link$k" -- set interface "link$k" ofport_request=3
done
for k in 1 2 3 4; do ip -n "host$k" neigh flush dev eth0 nud permanent; done
echo '---- the learning switch'
serve "$here/../examples/learning.csdn" "$here/../examples/learning.net"
way 1 2 answered
way 1 4 answered
way 3 2 answered
finish "$here/../examples/learning.csdn" "$here/../examples/learning.net"
exit $wrong
