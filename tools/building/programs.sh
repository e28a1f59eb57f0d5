# shellcheck shell=bash disable=SC2034,SC2154
# The two programs of these sources: the proved one, and the one that is built without proofs. Which of them are
# current, and how one is put in its place. To be sourced by a script that has set `top`, the repository's folder.
#
# A program is current where its mark, the file PROGRAM.mark beside it, has the sum of the sources as they stand and the
# sum of the program itself. The sums are made anew only where a file is another one than at the last look, by its
# times, size and number.

out=$top/out
proved=$top/crates/lra/out/lra
unproved=$out/lra-not-proved

# closure: the lines of the crates that the program stands on, lowest first, of the crates.txt here.
closure() {
  awk -F: '/^[a-z]/ { line[$1] = $0; needs[$1] = $2 }
    function put(name,   parts, count, i) {
      if (done[name] || !(name in line)) return
      done[name] = 1
      count = split(needs[name], parts, " ")
      for (i = 1; i <= count; i++) put(parts[i])
      print line[name]
    }
    END { put("lra") }' crates.txt
}

# files: the files of these crates that a proof or a run reads, in the order of their names, each ended by a zero byte.
files() {
  local folders
  mapfile -t folders < <(closure | sed -E 's,^([a-z0-9_]+).*,crates/\1,')
  find "${folders[@]}" \( -name out -o -name must-fail \) -prune -o -type f -print0 | LC_ALL=C sort -z
}

# sum_of FOLDER: a sum of all that the program of that copy of the repository is made of.
sum_of() {
  (
    set -o pipefail
    cd "$1" && { cat HANDLES && closure && files | xargs -0 sha256sum; } | sha256sum | cut -d ' ' -f 1
  )
}

# sum_of_program PROGRAM: a sum of its bytes, or `none`.
sum_of_program() {
  if [ -f "$1" ]; then sha256sum <"$1" | cut -d ' ' -f 1; else echo none; fi
}

# The words by which `find` takes the sources that may count, those of crates on which the program doesn't stand among
# them.
sources_at=("$top/HANDLES" "$top/crates.txt" "$top/crates")
counted=(\( -name out -o -name must-fail \) -prune -o -type f)

# list_files: of these and of both programs the name, number, size and times, of the contents and of any change.
list_files() {
  find "${sources_at[@]}" "$proved" "$unproved" "${counted[@]}" -printf '%p %i %s %T@ %C@\n' 2>/dev/null
}

# look: sets `sources`, `proved_sum` and `unproved_sum`. The sums stand in out/sums beside that of the listing. They are
# kept only where the sources are older than two seconds: a file that changes twice in one tick of the clock keeps its
# times.
look() {
  local listing kept='' now
  printf -v now '%(%s)T' -1
  read -r listing _ < <(list_files | sha256sum)
  if [ -f "$out/sums" ]; then read -r kept sources proved_sum unproved_sum <"$out/sums"; fi
  [ "$kept" != "$listing" ] || return 0
  sources=$(sum_of "$top") || sources=unknown
  proved_sum=$(sum_of_program "$proved")
  unproved_sum=$(sum_of_program "$unproved")
  [ -z "$(find "${sources_at[@]}" "${counted[@]}" -newerct "@$((now - 2))" -print -quit)" ] || return 0
  mkdir -p "$out" && echo "$listing $sources $proved_sum $unproved_sum" >"$out/sums.$$" && mv "$out/sums.$$" "$out/sums"
}

# has_mark PROGRAM SUM: whether the program, of this sum, is marked as one of the sources as they stand.
has_mark() {
  local mark
  [ -x "$1" ] && [ -f "$1.mark" ] && read -r mark <"$1.mark" && [ "$mark" = "$sources $2" ]
}
is_proved() { has_mark "$proved" "$proved_sum"; }
is_unproved() { has_mark "$unproved" "$unproved_sum"; }

# mark PROGRAM SOURCES: says of which sources the program is, and which toolchain made it.
mark() {
  printf '%s %s\n%s\n' "$2" "$(sum_of_program "$1")" "$(rt version)" >"$1.mark.new" && mv "$1.mark.new" "$1.mark"
}

# put_program FILE PROGRAM SOURCES: a built program comes to its place, and then gets its mark.
put_program() {
  mkdir -p "$(dirname "$2")" && rm -f "$2.mark" && cp "$1" "$2.new" && mv "$2.new" "$2" && mark "$2" "$3"
}

# A build has a child process at a time, and a room, a temporary folder. Both are gone when the script has ended, unless
# it is killed without a warning.
child=
room=

# end_whole: from here on, whatever ends the script, it ends its build.
end_whole() {
  trap end_build EXIT
  trap 'exit 129' HUP
  trap 'exit 130' INT
  trap 'exit 143' TERM
}

# begin_build LOCK WHY: waits for this script's turn at a kind of build, and tells WHY, where another one has it.
begin_build() {
  end_whole
  mkdir -p "$out" && exec 9>>"$1" || return
  flock -n 9 && return
  tell "$2"
  start flock 9 && wait_for_child
}

# end_build: ends the child, removes the room, and lets others have their turn. What the child has started may take a
# moment to end, and write into the room until then.
end_build() {
  local try
  trap '' HUP INT TERM
  [ -z "$child" ] || { kill "$child" && wait "$child"; } 2>/dev/null
  child=
  for try in {1..10}; do
    if [ -z "$room" ] || rm -rf "$room" 2>/dev/null; then break; fi
    sleep 0.3
  done
  room=
  exec 9>&-
  trap - EXIT HUP INT TERM
}

# open_room: makes the room with a copy of the sources, room/tree, and sets `made`, the sum of it. The gate's command
# runs programs that lie below the room as nobody, so others may pass through.
open_room() {
  room=$(mktemp -d -t lra-room.XXXXXX) && chmod 711 "$room" || return
  mkdir -m 711 "$room/tmp" "$room/tree" && mkdir "$room/tree/.git" || return
  cp "$top/HANDLES" "$room/tree" && (cd "$top" && closure) >"$room/tree/crates.txt" || return
  (cd "$top" && files | tar -c --null -T -) | tar -x -C "$room/tree" || return
  made=$(sum_of "$room/tree")
}

# start WORD..: starts a command as the child, with no input. Where the system can do it, the child ends even if this
# script is killed.
start() {
  local bound=()
  if setpriv --pdeathsig TERM true 2>/dev/null; then bound=(setpriv --pdeathsig TERM); fi
  "${bound[@]}" "$@" </dev/null &
  child=$!
}

# wait_for_child: until it has ended; its status.
wait_for_child() {
  local status
  wait "$child"
  status=$?
  child=
  return "$status"
}
