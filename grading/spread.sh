# Runs all solutions, in the room, and shows the rows in the order of the solutions, each as soon as it may be shown:
# sh spread.sh JOBS WITH SSHLOGIN WORDS, where the words are for rows.awk. It is the head of a group of
# processes, to which a signal goes.
jobs=$1 with=$2 sshlogin=$3
shift 3

# shows the rows of each solution once those of the ones before it are shown
in_order() {
  exec 4<jobs
  read -r due <&4
  while read -r over; do
    : >"over.$over"
    while [ -n "$due" ] && [ -e "over.$due" ]; do
      cat "result.$due"
      read -r due <&4 || due=
    done
  done
}

make_rows() {
  trap : TERM
  if [ "$with" != parallel ]; then
    xargs -P "$jobs" -n 1 sh -c 'sh ./run.sh grade_solution "$1" >"result.$1"; echo "$1"' job <jobs 2>&9 9>&- |
      in_order 2>&9 9>&-
  elif [ -z "$sshlogin" ]; then
    parallel -k -j "$jobs" --termseq TERM,5000,KILL,25 sh ./run.sh grade_solution '{}' <jobs 2>&9 9>&-
  else
    # each machine gets a copy of all, which each job unpacks for itself; after a signal GNU parallel gives a job there no
    # time to remove its folders, so the job is out of its reach, and `grade` ends it
    parallel -k -j "$jobs" --termseq TERM,5000,KILL,25 --sshlogin "$sshlogin" --workdir "$(cat away)" \
      --basefile "$PWD/./files.tar" \
      'mkdir {#} && cd {#} && tar -xf ../files.tar &&
        $(setsid -w true 2>/dev/null && echo setsid -w) sh ./run.sh grade_solution {}; cd .. && rm -rf {#}' <jobs 2>&9 9>&-
  fi
}

# these shells wait for those that they have started, which have the signal, too
trap : TERM
# one kind of awk waits for more rows than there are yet, if nothing is said
case $(awk -W version 2>&1 </dev/null) in
  mawk*) set -- -W interactive "$@" ;;
esac
# a shell says of each process that a signal has ended it; only what the processes say is wanted
exec 9>&2 2>/dev/null
make_rows | tee results 2>&9 9>&- | awk "$@" -f rows.awk 2>&9 9>&- || : >unwritten
