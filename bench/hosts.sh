#!/usr/bin/env bash
# bench/hosts.sh PROGRAM [COUNT]: how many auctions a second are audited on one host, and on two (docs/MANY.md).
#
# It holds COUNT auctions (100) of 3 seals of width 16 with 40 lanes, and audits them by `checker/check.py audit` with PROGRAM beside it, as
# GNU parallel hands them out over ssh: each folder is copied to a host, audited there, and removed there. The hosts are network
# namespaces of this machine, each with an address, an ssh server and one processor of its own; so what is shown is that nothing but
# files goes between them, and how the work adds up. It wants root, parallel, openssh-server, rsync, iproute2 and taskset, and changes
# nothing outside of a folder of TMPDIR but these namespaces, which it removes.
set -eu
if [ $# -lt 1 ] || [ $# -gt 2 ] || [[ ! ${2:-100} =~ ^[1-9][0-9]{0,4}$ ]]; then sed -n '2,8s/^# \{0,1\}//p' "$0"; exit 2; fi
program=$(realpath "$1")
count=${2:-100}
top=$(realpath "$(dirname "$0")/..")
folder=$(mktemp -d)
mark=v$$
servers=()

leave() {
  local host
  [ ${#servers[@]} = 0 ] || kill "${servers[@]}" 2>/dev/null || true
  for host in 0 1 2; do ip netns del "$mark-$host" 2>/dev/null || true; done
  rm -rf "$folder"
}
trap leave EXIT
cd "$folder"

fail() { echo "hosts.sh: $*" >&2; exit 1; }

random() { od -An -v -tx1 -N"$1" /dev/urandom | tr -d ' \n'; }

# hold NUMBER: an auction, whose public files stay in a folder of its id, and its line in the file `digests`
hold() {
  local id seat bits
  mkdir house && cd house
  python3 "$top/checker/check.py" announce announcement --kind vickrey --unit EUR --decimals 2 --width 16 --reserve none --lanes 40 \
    --auditors 0 --seals none --secrets none --board none --draw none --reply none --key none --place here --seat '1 Ann' \
    --seat '2 Bo' --seat '3 Cleo' >/dev/null
  id=$(sed -n 's/^auction //p' announcement)
  "$program" announce "$id" 16 40 >/dev/null
  for seat in 1 2 3; do
    "$program" seal "$id" $seat $((RANDOM * 2)) 16 40 "$(random 32)" secret-$seat seal-$seat >/dev/null
    "$program" submit "$id" seal-$seat secret-$seat >/dev/null
  done
  bits=$(od -An -v -tu1 -w1 -N40 /dev/urandom | awk '{ printf "%d", $1 % 2 }')
  printf 'vickrey-challenge 1\nbits %s\nend\n' "$bits" >challenge
  "$program" prove "$id" "$(random 32)" board >/dev/null
  "$program" answer "$id" challenge reply >/dev/null
  cd ..
  mkdir "public/$id"
  mv house/announcement house/board house/challenge house/reply house/seal-* "public/$id"
  rm -r house
  echo "$(sha256sum <"public/$id/board" | cut -d ' ' -f 1) $id" >>digests
}

# host NUMBER PROCESSOR: a namespace with an address, and an ssh server on one processor
host() {
  local name=$mark-$1
  ip netns add "$name"
  ip link add "$mark.$1" type veth peer name eth0 netns "$name"
  ip link set "$mark.$1" netns "$mark-0"
  ip -n "$mark-0" link set "$mark.$1" master bridge up
  ip -n "$name" addr add "10.99.0.1$1/24" dev eth0
  ip -n "$name" link set eth0 up
  ip -n "$name" link set lo up
  cat >"sshd-$1" <<END
ListenAddress 10.99.0.1$1
HostKey $folder/key
AuthorizedKeysFile $folder/key.pub
StrictModes no
UsePAM no
PermitRootLogin prohibit-password
PidFile none
END
  ip netns exec "$name" taskset -c "$2" "$(command -v sshd)" -D -f "$folder/sshd-$1" 2>"sshd-$1.log" &
  servers+=($!)
  printf 'Host host%s\n  HostName 10.99.0.1%s\n  IdentityFile %s/key\n  StrictHostKeyChecking no\n  UserKnownHostsFile %s/known\n' \
    "$1" "$1" "$folder" "$folder" >>config
  printf '  LogLevel ERROR\n  ControlMaster auto\n  ControlPath %s/to-%%h\n  ControlPersist 10\n' "$folder" >>config
}

# audited HOSTS: audits all auctions on these hosts, and says how many a second
audited() {
  local began ended
  began=$(date +%s%N)
  (cd public && ip netns exec "$mark-0" parallel --will-cite --colsep ' ' --ssh "ssh -F $folder/config" --sshlogin "$1" --jobs 2 \
    --workdir "$folder/there" --basefile tools --transferfile '{2}' --cleanup \
    "cd {2} && python3 ../tools/checker/check.py audit announcement {1} . --program ../tools/vickrey | tail -n 1" <../digests) >sentences
  ended=$(date +%s%N)
  [ "$(grep -c ' wins and pays .* All 10 checks hold\.$' sentences)" = "$count" ] || fail "not every audit holds: $(sort sentences | uniq -c | tail -n 3)"
  awk -v hosts="$1" -v count="$count" -v nanoseconds=$((ended - began)) \
    'BEGIN { printf "%-14s %6.1f auctions a second\n", hosts, count / nanoseconds * 1e9 }'
}

[ "$(id -u)" = 0 ] || fail "it wants root, for network namespaces"
for tool in parallel sshd rsync ip taskset; do command -v $tool >/dev/null || fail "no $tool"; done
mkdir -p public/tools/checker /run/sshd
cp "$program" public/tools/vickrey
cp "$top"/checker/*.py public/tools/checker
for ((number = 0; number < count; number++)); do hold; done
ssh-keygen -q -t ed25519 -N '' -f key
export RSYNC_RSH="ssh -F $folder/config"
ip netns add "$mark-0"
ip -n "$mark-0" link add bridge type bridge
ip -n "$mark-0" addr add 10.99.0.10/24 dev bridge
ip -n "$mark-0" link set bridge up
ip -n "$mark-0" link set lo up
host 1 0
host 2 1
sleep 1
audited host1
audited host1,host2
audited host1
audited host1,host2
