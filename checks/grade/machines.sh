#!/bin/sh
# Tests that the grader spreads solutions over machines: sh checks/grade/machines.sh [GRADE]. It starts two servers of
# OpenSSH on this machine, at ports of the loopback that are free, with keys of their own, and ends them. The program is
# a stand-in, which works under no shield, and that is refused for root. Begun by root, and where there is no sshd, GNU
# parallel or rsync, it says so and tests nothing. Leaves nothing behind.
cd "$(dirname "$0")/../.." || exit 1
check=checks/grade/machines.sh
if [ "$(id -u)" = 0 ]; then
  echo "$check: nothing is tested, since this is root" >&2
  exit 0
fi
. checks/grade/stand-in.sh
PATH=$PATH:/usr/sbin:/sbin

for tool in sshd ssh ssh-keygen rsync parallel; do
  if ! command -v $tool >/dev/null || [ $tool = parallel ] && ! parallel --version </dev/null 2>/dev/null | grep -q '^GNU'; then
    echo "$check: nothing is tested, since there is no $tool" >&2
    exit 0
  fi
done

end_servers() {
  for one in "$room"/pid.*; do
    [ ! -f "$one" ] || kill "$(cat "$one")"
  done
  cd /
  rm -rf "$room"
}
trap end_servers EXIT

# a server at the first port from here on that is free; its home is this room
start_server() {
  port=$2
  while [ "$port" -lt $(($2 + 50)) ]; do
    "$(command -v sshd)" -f server -p "$port" -o "PidFile=$room/pid.$1" -E "$room/log.$1" 2>/dev/null && waits [ -s "pid.$1" ] && break
    port=$((port + 1))
  done
  printf 'Host %s\n Port %s\n' "$1" "$port" >>client
}

start_servers() {
  ssh-keygen -q -t ed25519 -N '' -f host && ssh-keygen -q -t ed25519 -N '' -f user || return 1
  cat >server <<END
ListenAddress 127.0.0.1
HostKey $room/host
AuthorizedKeysFile $room/user.pub
StrictModes no
UsePAM no
PasswordAuthentication no
SetEnv HOME=$room/home TMPDIR=$TMPDIR
END
  mkdir home
  start_server one 42200
  start_server two 42300
  cat >>client <<END
Host *
 HostName 127.0.0.1
 IdentityFile $room/user
 IdentitiesOnly yes
 StrictHostKeyChecking no
 UserKnownHostsFile $room/known
 LogLevel ERROR
END
  ssh -F client one true && ssh -F client two true
}

if ! start_servers 2>said; then
  echo "$check: nothing is tested, since sshd does not serve here: $(cat said log.* 2>/dev/null | tail -n 1)" >&2
  exit 0
fi
PARALLEL_SSH="ssh -F $room/client"
export PARALLEL_SSH

put task/1/output hello
put task/2/output 'a word'
put task/2/input 'a word'
put task/2/arguments two
for name in a b c d e f g h; do
  put "class/$name.mms" 'read -r line; echo "${line:-hello}"'
done
put class/e.mms 'echo hallo'
put "$(printf 'class/f\n\377.mms')" 'echo hello'
gives 'solutions are spread, and come in their order' 'class/a.mms        2/2
class/b.mms        2/2
class/c.mms        2/2
class/d.mms        2/2
class/e.mms        0/2  1: the output differs at byte 2 (line 1)
class/f\n\xff.mms  1/2  2: the output differs at byte 1 (line 1)
class/f.mms        2/2
class/g.mms        2/2
class/h.mms        2/2' 1 --sshlogin 2/one,2/two task class
for machine in one two; do
  [ "$(grep -c Accepted "log.$machine")" -gt 4 ] || wrong "the machine $machine has had no work: $(tail -n 3 "log.$machine")"
done
is_clean && [ -z "$(ls -A home)" ] || wrong "files are left: $(ls -A home "$TMPDIR")"

# a signal ends what runs there, too
for name in 1 2 3 4; do
  put sleeping/$name.mms 'echo $$ >"'"$room"'/running/$$"; exec sleep 20'
done
ends_by TERM 143 parallel 4 --sshlogin 2/one,2/two
exit $bad
