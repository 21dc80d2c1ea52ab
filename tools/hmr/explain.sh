# The sentence that ./hmr writes after a status that isn't 0: the status, its cause, and what to do.
#
# Sourced by ./hmr, with `own` and `say`. The program's output isn't read, so what only its last line tells is said to
# stand there; the rest is seen from the words, the input, the folder and the ports that something listens at.
. "$own/words.sh"

TEXT_BYTES=131072
SOURCE_NAMES=8192
SOURCE_BYTES=33554432
SCRIPT_BYTES=16777216
RECORD_BYTES=268435456

# nearest WORD CANDIDATE..: the candidate that fewest edits of a letter lead to, if three or fewer do.
nearest() {
  printf '%s\n' "$@" | awk '
    NR == 1 { word = $0; best = 4; next }
    {
      size = length($0)
      for (j = 0; j <= size; j++) row[j] = j
      for (i = 1; i <= length(word); i++) {
        corner = row[0]
        row[0] = i
        for (j = 1; j <= size; j++) {
          step = corner + (substr(word, i, 1) != substr($0, j, 1))
          corner = row[j]
          row[j] = step
          if (corner + 1 < row[j]) row[j] = corner + 1
          if (row[j - 1] + 1 < row[j]) row[j] = row[j - 1] + 1
        }
      }
      if (row[size] < best && row[size] < size) { best = row[size]; found = $0 }
    }
    END { print found }'
}

# is_within NUMBER RANGE: whether it is a decimal number of a range as 1..32.
is_within() {
  local number=${1#+}
  [[ $number =~ ^[0-9]{1,18}$ ]] && [ "$((10#$number))" -ge "${2%%..*}" ] && [ "$((10#$number))" -le "${2##*..}" ]
}

# range_of COMMAND OPTION: sets `range` to that of the option's value, empty where it takes none; 1 where it isn't one.
range_of() {
  local option
  for option in $(field 3 "$1"); do
    if [ "${option%%=*}" = "$2" ]; then
      range=${option#"$2"}
      range=${range#=}
      return 0
    fi
  done
  return 1
}

# read_words COMMAND WORDS..: sets `places` to the words that aren't options, or `cause` to what is wrong with an option.
read_words() {
  local command=$1 word name range seen=' ' is_over='' near
  shift
  places=() cause=
  while [ $# -gt 0 ]; do
    word=$1
    shift
    if [ -n "$is_over" ] || [[ $word != -* ]]; then
      places+=("$word")
      continue
    fi
    if [ "$word" = -- ]; then
      is_over=yes
      continue
    fi
    name=${word%%=*}
    if ! range_of "$command" "$name"; then
      near=$(nearest "$name" $(field 3 "$command" | sed 's/=[^ ]*//g'))
      cause="$name is no option of $command${near:+; the nearest is $near}"
    elif [[ $seen == *" $name "* ]]; then
      cause="$name stands twice"
    elif [ -z "$range" ]; then
      [ "$word" = "$name" ] || cause="$name takes no value"
    elif [ "$word" = "$name" ] && [ $# -eq 0 ]; then
      cause="$name takes a number from ${range%%..*} to ${range##*..}"
    else
      [ "$word" = "$name" ] && { word="$name=$1"; shift; }
      is_within "${word#*=}" "$range" ||
        cause="$name takes a number from ${range%%..*} to ${range##*..}, and not '${word#*=}'"
    fi
    [ -z "$cause" ] || return
    seen="$seen$name "
  done
}

# is_module_name WORD: whether a module can have that name.
is_module_name() {
  [[ $1 =~ ^(/[A-Za-z0-9_.-]+)+$ ]] && [ "${#1}" -le 255 ] && [[ ! $1/ =~ /\.\.?/ ]]
}

# place_fault KIND WORD: says what is wrong with a word in the place of that name.
place_fault() {
  local name=${1%%=*} range=${1#*=}
  case $name in
    FOLDER) ;;
    NAME | ROOT..) is_module_name "$2" || echo "'$2' is no name of a module: one begins with a slash, as /main.js" ;;
    *)
      [ "$range" = "$1" ] || is_within "$2" "$range" ||
        echo "$name is a number from ${range%%..*} to ${range##*..}, and not '$2'"
      ;;
  esac
}

# places_fault COMMAND: says what is wrong with the words of `places`.
places_fault() {
  local kind at=0 least most word
  for kind in $(field 2 "$1"); do
    least=1 most=1
    case $kind in *..=*) least=${kind#*=} least=${least%%..*} most=${kind##*..} ;; esac
    if [ $((${#places[@]} - at)) -lt "$least" ]; then
      echo "${kind%%[.=]*} is missing: $(shown_words "$1")"
      return
    fi
    for word in "${places[@]:at:most}"; do
      place_fault "$kind" "$word"
    done | head -n 1
    at=$((at + most))
  done
  [ "${#places[@]}" -le "$at" ] || echo "there are too many words: $(shown_words "$1")"
}

# words_fault WORDS..: why the words are no command.
words_fault() {
  local command=${1-} places cause near
  if [ $# -eq 0 ]; then
    echo "no command was given"
    return
  fi
  if ! commands | grep -qxF -- "$command"; then
    near=$(nearest "$command" $(commands) help)
    echo "'$command' is no command${near:+; the nearest is $near}"
    return
  fi
  shift
  read_words "$command" "$@"
  [ -n "$cause" ] || cause=$(places_fault "$command" | head -n 1)
  if [ -z "$cause" ] && [ "$(printf '%s\n' "${places[@]}" | sort | uniq -d | wc -l)" -gt 0 ]; then
    cause="a root stands twice"
  fi
  echo "${cause:-the words make no command}"
}

# value_of OPTION WORDS..: the option's value, as 5173 of `--port 5173` or `--port=5173`.
value_of() {
  local option=$1
  shift
  while [ $# -gt 0 ]; do
    case $1 in
      "$option") echo "${2-}" ;;
      "$option"=*) echo "${1#*=}" ;;
    esac
    shift
  done
}

# is_listening PORT: whether something listens at that port; nothing connects to it.
is_listening() {
  cat /proc/net/tcp /proc/net/tcp6 2> /dev/null |
    awk -v port="$(printf ':%04X' "$1")" '$4 == "0A" && $2 ~ port "$" { found = 1 } END { exit !found }'
}

# input_size: the bytes of the input, where it is a file.
input_size() { [ -f /dev/stdin ] && stat -L -c %s /dev/stdin 2> /dev/null; }

# folder_limit FOLDER: which limit the modules of a folder pass, as far as it can be seen; nothing where they pass none.
folder_limit() {
  local files large
  files=$(find -L "$1" -mindepth 1 -type d \( -name '.*' -o -name node_modules \) -prune -o -type f -name '*.js' \
    -printf '%s %p\n' 2> /dev/null)
  large=$(awk -v most="$TEXT_BYTES" '
    $1 > most { size = $1; sub(/^[0-9]+ /, ""); print $0 " has " size " bytes"; exit }' <<< "$files")
  if [ -n "$large" ]; then
    echo "$large, and the text of a module has at most $TEXT_BYTES: split it or take it out of the folder"
  elif [ "$(wc -l <<< "$files")" -gt "$SOURCE_NAMES" ]; then
    echo "$1 has $(wc -l <<< "$files") modules, and at most $SOURCE_NAMES are served: serve a smaller folder"
  elif [ "$(awk '{ sum += $1 } END { print sum + 0 }' <<< "$files")" -gt "$SOURCE_BYTES" ]; then
    echo "the modules of $1 have more than $SOURCE_BYTES bytes together: serve a smaller folder"
  fi
}

# limit_cause COMMAND WORDS..: which limit was passed.
limit_cause() {
  local command=$1 most size limit
  shift
  case $command in
    serve | page)
      read_words "$command" "$@"
      limit=$(folder_limit "${places[0]-.}")
      if [ -n "$limit" ]; then
        echo "$limit"
      elif [ "$command" = serve ]; then
        echo "the last line of the output names a limit of docs/LIMITS.md that was passed: make fewer or smaller edits"
      else
        echo "the last line of the output names the limit that was passed, as that on the answers of a connection: connect again"
      fi
      ;;
    play | record | check)
      most=$SCRIPT_BYTES
      [ "$command" != check ] || most=$TEXT_BYTES
      size=$(input_size)
      if [ -n "$size" ] && [ "$size" -gt "$most" ]; then
        echo "the input, $(readlink /proc/self/fd/0), has $size bytes, and $command reads at most $most: shorten it"
      else
        echo "the last line of the output names the limit that was passed, one of docs/LIMITS.md: make the input smaller"
      fi
      ;;
    audit)
      size=$(input_size)
      echo "a record has at most $RECORD_BYTES bytes, and the input has ${size:-more}: audit the record of a shorter run"
      ;;
    *) echo "a client makes at most 20000 instances, and that was passed, as the last line of the output says: $(
      [ "$command" = make ] && echo 'make a smaller page' || echo 'join again')" ;;
  esac
}

# folder_cause COMMAND WORDS..: why the folder failed.
folder_cause() {
  local folder
  read_words "$@"
  folder=${places[0]-}
  if [ ! -e "$folder" ]; then
    echo "there is no folder $folder: name one that is there"
  elif [ ! -d "$folder" ]; then
    echo "$folder is no folder: name the folder that the modules stand in"
  elif [ ! -r "$folder" ] || [ ! -x "$folder" ]; then
    echo "the folder $folder can't be read: change its rights"
  else
    echo "a folder or file of $folder couldn't be read, or went while it was read: look at its rights, and start again"
  fi
}

# net_cause COMMAND WORDS..: why the net failed.
net_cause() {
  local command=$1 port
  shift
  if [ "$command" = serve ]; then
    port=$(value_of --port "$@")
    if [ "${port:-0}" -ne 0 ] && is_listening "$port"; then
      echo "the port $port is taken by another program: end that one, or take another port"
    elif [ "${port:-0}" -ne 0 ] && [ "$port" -lt 1024 ]; then
      echo "the port $port couldn't be opened: ports below 1024 need the system's leave, so take a higher one"
    else
      echo "a port, a connection or a thread failed: start it again, and with fewer clients where it fails again"
    fi
    return
  fi
  read_words join "$@"
  port=${places[0]-0}
  if is_listening "$port"; then
    echo "the connection to port $port failed or ended early: see whether the server there is ./hmr serve, and still runs"
  else
    echo "nothing listens at port $port of this machine: start ./hmr serve FOLDER ROOT --outside 1 --port $port first"
  fi
}

# cause_of STATUS WORDS..: the cause, and what to do.
cause_of() {
  local status=$1
  shift
  case $status in
    2) echo "$(words_fault "$@"): see ./hmr help" ;;
    3) echo "the input is no script, by the fault that the output names with its line: see docs/SCRIPT.md" ;;
    4) echo "the input couldn't be read: give a file or a pipe that can be" ;;
    5) echo "the output couldn't be written to its end, as to a full disk or a pipe that is closed: see where it goes" ;;
    6) folder_cause "$@" ;;
    7) net_cause "$@" ;;
    8) limit_cause "$@" ;;
    9) echo "memory ran out: give it more, as by a higher ulimit -v, or less to do" ;;
    10) echo "the server at the port sent no answer of the protocol (docs/PROTOCOL.md): is it ./hmr serve?" ;;
    13[0-9] | 14[0-9] | 15[0-9])
      echo "the program was ended by the signal $(kill -l "$((status - 128))"): what it had written stands"
      ;;
    126 | 127) echo "the program couldn't be started: ./hmr --which names its file" ;;
    *) echo "docs/COMMANDS.md doesn't have it" ;;
  esac
}

# explain_status STATUS WORDS..
explain_status() { say "status $1: $(cause_of "$@")"; }
