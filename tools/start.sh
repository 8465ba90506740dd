# shellcheck shell=sh disable=SC2086,SC2154
# What plan-order and try-bound share. They read this file after they have set:
#     here       the repository
#     name       what the person started
#     program    the crate of the program
#     usage      what a person may write
# A line on standard error begins with the name. Status 2 is a failure or wrong usage.

out=$here/crates/$program/out
built=$out/$program

say() { printf '%s: %s\n' "$name" "$*" >&2; }

fail() {
  say "$*"
  exit 2
}

wrong_usage() {
  printf 'usage: %s\n' "$usage" >&2
  exit 2
}

# Is the program missing, or a source newer than it? What rt makes in the crates' folders out/ is no source, nor is a crate's own
# folder, which is newer once rt has made its out/.
stale() {
  [ -f "$built" ] && [ -x "$built" ] || return 0
  [ -n "$(find "$here"/crates/*/* "$here/crates.txt" -name out -prune -o -newer "$built" -print 2>/dev/null | head -n 1)" ]
}

# The crates that have to be proved, in rt's order: all that the program's stands on, each after those below it, then its own.
crates_needed() {
  awk -v program="$program" '
    function list(crate, more, n, i) {
      if (crate in listed || !(crate in under)) return
      listed[crate] = 1
      n = split(under[crate], more)
      for (i = 1; i <= n; i++) list(more[i])
      print crate
    }
    { sub(/#.*/, ""); at = index($0, ":") }
    at { crate = $1; sub(/:.*/, "", crate); under[crate] = substr($0, at + 1) }
    END { list(program) }' "$here/crates.txt"
}

# Writes what rt says to the log, tells of each crate that it proves and of each wait, and ends with rt's status. rt says nothing
# of a crate that has not changed, which is counted with the next one that is proved.
follow() {
  ended=2 shown=
  while IFS= read -r line; do
    printf '%s\n' "$line" >>"$log"
    case $line in
    "ended "*) ended=${line#ended } ;;
    "rt: chose --jobs "*) crate=${line##* } ;;
    "rt: "*"waiting for "*) tell "${line#rt: }" ;;
    "logic=proved "*) tell "$crate proved, $(place "$crate" $crates) of $total crates" ;;
    esac
  done
  if [ -t 2 ] && [ -n "$shown" ]; then printf '\n' >&2; fi
  return "$ended"
}

# Says how far the build is, at a terminal in one line that each next takes the place of.
tell() {
  shown=yes
  if [ -t 2 ]; then printf '\r\033[K%s: %s' "$name" "$1" >&2; else say "$1"; fi
}

# Which of the words behind it the first word is.
place() {
  wanted=$1 at=0
  shift
  for word; do
    at=$((at + 1))
    if [ "$word" = "$wanted" ]; then break; fi
  done
  echo "$at"
}

# Builds the program, or ends in one line that says where the log is.
build() {
  if [ -e "$built" ]; then why="older than its sources"; else why="not built yet"; fi
  command -v rt >/dev/null 2>&1 || fail "the program is $why, and rt (the Rattle kit) is not on the PATH"
  log=$out/$name.log began=$out/$name.began cause="could not be built"
  if ! (mkdir -p "$out" && : >"$log" && : >"$began") 2>/dev/null; then
    cause="is $why, and crates/$program/out can't be written to"
    log=$(mktemp "${TMPDIR:-/tmp}/$name.XXXXXX" 2>/dev/null) || fail "the program $cause, nor ${TMPDIR:-/tmp}"
  fi
  crates=$(crates_needed)
  set -- $crates
  total=$#
  say "the program is $why: up to $total crates to prove"
  # rt also starts what it built, which ends at once where it has nothing to read
  { (cd "$here/crates/$program" && rt run) </dev/null 2>&1; printf '\nended %s\n' "$?"; } | follow ||
    fail "the program $cause: see $log"
  # the program is as old as the sources that it was built from, also where rt found it unchanged
  touch -c -r "$began" "$built" 2>/dev/null && rm -f "$began"
  if stale; then fail "the program is still $why after the build: see $log"; fi
}

# Takes a file as standard input.
open() {
  if [ -d "$1" ]; then fail "$1 is a folder"; fi
  if [ ! -r "$1" ]; then fail "$1 can't be read"; fi
  exec <"$1"
}

# Says to a person at the terminal what is waited for.
await() {
  (: 4<&0) 2>/dev/null || fail "standard input is closed"
  if [ -t 0 ]; then say "waiting for $1 on standard input (--help says more)"; fi
}

# Runs the program and ends with the status that it tells on descriptor 3. Its standard input is this one's, or the bytes of
# $1, written as printf takes them. Its standard output and standard error are this one's, with nothing between; what the shell
# itself says of a program that a signal ends is dropped.
# shellcheck disable=SC2059
run() {
  # where one is closed, a descriptor that can't be written to stands for it
  if (: 4>&1) 2>/dev/null; then exec 4>&1; else exec 4</dev/null; fi
  if (: 5>&2); then exec 5>&2; else exec 5</dev/null; fi
  told=$(
    exec 2>/dev/null
    if [ $# -eq 0 ]; then start; else printf "$1" | start; fi
    exit $?
  )
  ended=$?
  case $ended:$told in 0:[012]) exit "$told" ;; esac
  fail "the program ended without an answer (status $ended)"
}

start() { (exec "$built" status 3>&1 >&4 2>&5 4>&- 5>&-); }
