# Runs a program of this repository for the script that takes this in, ./rp, ./rp-wide or ./rp-panel, in the caller's folder, with the
# caller's words and status. `home` is the repository's folder; `name` the program's, and `crate` its crate's.
#
# Where the program that lies here was proved from the sources that lie here, that program answers. What ./prove kept
# beside it tells: first names, sizes and times, and where these differ, as in a copy of the tree, checksums, which need
# neither the kit nor the times. A program with another checksum is not run. Where nothing tells it, tools/make/answer
# answers by the source.
program=crates/$crate/out/$crate
# Where the sources are, in one line, and then the checksums of the sources and of the program.
proved=$program.proved
# Names, sizes and times when these checksums were last seen to hold.
seen=$program.seen

# Called in a shell of its own. Of a link what it leads to is listed.
# shellcheck disable=SC2086
listed() { exec find -L $places -printf '%p %s %T@ %C@\n' 2>/dev/null; }

is_as_seen() (cd "$home" && [ -f $proved ] && read -r places <$proved && listed | cmp -s - $seen)

# Whether the checksums hold; if so, what was seen is kept for the next call, where the folder can be written.
# shellcheck disable=SC2086
is_as_proved() (
  cd "$home" && [ -f $proved ] && read -r places <$proved || exit 1
  listing=$(listed)
  sums=$(find -L $places -type f \( -name '*.rt' -o -name '*.antt' -o -path crates.txt -o -path $program \) -print0 |
    LC_ALL=C sort -z | xargs -0 sha256sum)
  [ "$sums" = "$(sed 1d $proved)" ] || exit 1
  { printf '%s\n' "$listing" >$seen.$$ && mv -f $seen.$$ $seen; } 2>/dev/null || rm -f $seen.$$ 2>/dev/null
  exit 0
)

# Whether checksums were kept, and none of them is of the program that stands here.
is_another() (
  cd "$home" && [ -f $proved ] || exit 1
  sum=$(sha256sum $program 2>/dev/null) || exit 0
  case $(cat $proved) in *"$sum"*) exit 1 ;; esac
  exit 0
)

if [ -x "$home/$program" ]; then
  if is_as_seen || is_as_proved; then
    exec "$home/$program" "$@"
  fi
  if is_another; then
    echo "$name: $program is not the program that was proved here. $home/prove proves and builds it again;" \
      "$home/prove --keep takes the one that stands there, where rt ci or rt run has just built it" >&2
    exit 70
  fi
  # Where no checksums were kept, `rt ci` or `rt run` proved and built the program, if it is newer than its sources.
  if "$home/prove" --keep-new "$crate" >/dev/null 2>&1; then
    exec "$home/$program" "$@"
  fi
fi
exec "$home/tools/make/answer" "$crate" "$@"
