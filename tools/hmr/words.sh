# What ./hmr answers itself: help, its version, and the completion of words for a shell.
#
# Sourced by ./hmr, with `top`, `own` and the functions of programs.sh.

# rows: the lines of the table of commands, without its comments.
rows() { grep -v '^#' "$own/commands"; }

# field NUMBER COMMAND: a column of the command's line, its spaces made one.
field() {
  rows | awk -F '|' -v at="$1" -v command="$2" '
    { name = $1; gsub(/ /, "", name) }
    name == command { text = $at; gsub(/ +/, " ", text); gsub(/^ | $/, "", text); print text }'
}

# commands: the names of all commands.
commands() { rows | awk '{ print $1 }'; }

# shown_words COMMAND: its words as the usage line has them.
shown_words() {
  local word text=
  for word in $(field 2 "$1"); do
    case $word in
      *..=0..*) word="[${word%%=*}]" ;;
      *) word=${word%%=*} ;;
    esac
    text="$text $word"
  done
  echo "$1$text"
}

tell_overview() {
  local command
  cat << 'END'
usage: ./hmr COMMAND ..

A server with hot module replacement, a client of it, and a player of scripts of both.

END
  for command in $(commands); do
    printf '  %s\n      %s\n' "$(shown_words "$command")" "$(field 4 "$command")"
  done
  cat << 'END'

  ./hmr help COMMAND        a command, with its options and an example
  ./hmr --version           the toolchain, the sum of the sources, and whether the program is proved
  ./hmr --prove [WORDS..]   proves and builds the program, where it isn't built here, and then runs it
  ./hmr --quick WORDS..     runs it unproved, by the toolchain's interpreter; it begins after some minutes
  ./hmr --which             the file of the program that is run
  ./hmr completions SHELL   completion of words, for bash or zsh: source <(./hmr completions bash)

After a status that isn't 0 a sentence on its cause goes to the standard error; HMR_QUIET=1 leaves it out.
To begin: ./hmr play < examples/stale.play
END
}

# tell_help [COMMAND]
tell_help() {
  if [ $# -eq 0 ]; then
    tell_overview
  elif [ $# -eq 1 ] && [ -f "$own/help/$1.txt" ] && commands | grep -qxF -- "$1"; then
    cat "$own/help/$1.txt"
  else
    say "there is no help on '$*'; the commands are: $(commands | paste -sd ' ')"
    return 1
  fi
}

tell_version() {
  local toolchain
  toolchain=$(told toolchain 2> /dev/null)
  find_program hmr || true
  if [ "$kind" != 'proved, kept in bin/' ]; then
    toolchain=$(rt version 2> /dev/null) || toolchain=
  fi
  echo "toolchain ${toolchain:-none}"
  echo "sources $(sources_sum "$toolchain")"
  echo "program ${kind:-none: $why}"
}

# options: each command's options for a `case`, without the ranges behind them.
option_arms() {
  local command
  for command in $(commands); do
    echo "    $command) words='$(field 3 "$command" | sed 's/=[^ ]*//g')' ;;"
  done
}

# tell_completions SHELL: the words of a command line; files, where no word of ours is due.
tell_completions() {
  local all own_words='help completions --help --version --quick --prove --which'
  all=$(commands | paste -sd ' ')
  case "$*" in
    bash)
      cat << END
# Completion of the words of ./hmr: source <(./hmr completions bash)
_hmr() {
  local current=\${COMP_WORDS[COMP_CWORD]} first=1 words=
  case \${COMP_WORDS[1]-} in --quick | --prove) [ "\$COMP_CWORD" -gt 1 ] && first=2 ;; esac
  case \${COMP_WORDS[first]-} in
    help) words='$all' ;;
    completions) words='bash zsh' ;;
$(option_arms)
  esac
  [ "\$COMP_CWORD" -gt "\$first" ] || words='$all $own_words'
  COMPREPLY=(\$(compgen -W "\$words" -- "\$current"))
}
complete -o default -F _hmr hmr
END
      ;;
    zsh)
      cat << END
# Completion of the words of ./hmr: source <(./hmr completions zsh)
_hmr() {
  local first=2 words_of=
  case \${words[2]-} in --quick | --prove) (( CURRENT > 2 )) && first=3 ;; esac
  case \${words[first]-} in
    help) words_of='$all' ;;
    completions) words_of='bash zsh' ;;
$(option_arms | sed "s/ words='/ words_of='/")
  esac
  (( CURRENT > first )) || words_of='$all $own_words'
  compadd -- \${=words_of}
  (( CURRENT > first )) && _files
}
compdef _hmr hmr
END
      ;;
    *)
      say 'completions takes one word, bash or zsh'
      return 1
      ;;
  esac
}
