#compdef uringwalk uringwalk-real
# zsh completion for uringwalk

_uringwalk_words() {
  local words=(
    "walk:run a script's schedule, and answer commands"
    'check:print what is wrong with a script'
    "trace:run a script's schedule, and write its trace"
    "migrate:put a script's setup before the events of a trace of form 1"
    'replay:run a trace of form 2, and answer commands'
    'log:print each event of a script or a trace, and what it changed'
    'explain:print what went wrong in a script or a trace, and when'
    'timeline:draw a script or a trace, moment by moment'
    'explore:look for a schedule of a script that goes wrong'
    "schedule:put a trace's events into a script as its schedule"
    "live:run a script's threads side by side, and answer commands"
    "serve:run a script's threads side by side, and answer commands of clients"
    'dap:serve an editor as a debug adapter'
    'help:print the usage of the program or of a word'
  )
  _describe -t words word words
}

_uringwalk() {
  local curcontext=$curcontext state line
  local -A opt_args
  local kinds=(
    failed short severed canceled timed-out expired not-found too-late overflow busy waits lost-wake-up
    not-taken not-reaped unfinished buffer-in-use unordered shared-position fsync-early taken-short
    no-such-slot cut-off went-on no-effect slot-in-use closed-early closed-while-held several
    left-running same-user-data not-durable refused-flags stuck closed-twice fsync-retried
  )
  local -a usage=('(- *)'{-h,--help}'[print the usage]')
  local script='_files -g "*.json(-.)"'
  local from='--from=[the first event]:event' to='--to=[the event after the last]:event'
  local turns='--turns=[how many turns each thread has, 1 to 1000000]:turns'
  local kernel='--kernel=[how many kernel workers there are, 1 to 8]:workers'

  _arguments -C $usage \
    '(- *)'{-V,--version}'[print the version]' \
    '1:word:_uringwalk_words' \
    '*::operand:->after' && return
  [[ $state == after ]] || return
  curcontext=${curcontext%:*:*}:uringwalk-$words[1]:
  case $words[1] in
    walk | check) _arguments $usage "1:script:$script" ;;
    trace)
      _arguments $usage \
        '--form=[1, the events alone, or 2, the setup and the events]:form:(1 2)' \
        '--eager[the run of a kernel that does at once all that it can]' \
        "1:script:$script" '2:trace to write:_files'
      ;;
    migrate)
      _arguments $usage \
        "1:script:$script" '2:trace of form 1:_files' '3:trace to write:_files'
      ;;
    replay) _arguments $usage '1:trace:_files' ;;
    log) _arguments $usage "$from" "$to" '1:script or trace:_files' ;;
    explain)
      _arguments $usage \
        "*--kind=[findings of this kind alone]:kind:($kinds)" \
        "*--allow=[faults of this kind don't count for the status]:kind:($kinds)" \
        '(--sarif)--json[print JSON]' '(--json)--sarif[print a SARIF log]' '*:script or trace:_files'
      ;;
    timeline)
      _arguments $usage "$from" "$to" \
        '1:script or trace:_files' '2:picture to write:_files'
      ;;
    explore)
      _arguments $usage \
        "(--allow --until)*--kind=[look for this kind alone]:kind:($kinds)" \
        "(--kind --until)*--allow=[don't look for faults of this kind]:kind:($kinds)" \
        '(--kind --allow)*--until=[look for a place that gets a value]:place = value' \
        '--runs=[how many runs there are, 1 to 1000000]:runs' \
        '--seed=[the seed of the runs]:seed' \
        '--first=[the number of the first run]:run' \
        '--events=[the most events of a run, 1 to 65536]:events' \
        '--out=[the script to write]:script to write:_files' \
        "--unlocked[let threads come between another's put, push and enter]" \
        '--sound-device[have no transfer end short or with EIO]' \
        '--late[let requests be issued after their submission]' \
        '--threads=[how many threads make the runs, 1 to 64]:threads' \
        '--json[print JSON]' "1:script:$script"
      ;;
    schedule)
      _arguments $usage \
        "1:script:$script" '2:trace:_files' '3:script to write:_files'
      ;;
    live)
      _arguments $usage "$turns" "$kernel" \
        '--trace=[the trace to write]:trace:_files' "1:script:$script"
      ;;
    serve)
      _arguments $usage "$turns" "$kernel" \
        '--port=[the port to listen on, 1 to 65535]:port' \
        '--clients=[how many sessions to end after, 1 to 1000000]:sessions' "1:script:$script"
      ;;
    dap) _arguments $usage ;;
    help) _arguments '1:word:_uringwalk_words' ;;
  esac
}

if [[ $service == uringwalk-real ]]; then
  _arguments '(- *)'{-h,--help}'[print the usage]' '1:script:_files -g "*.json(-.)"'
else
  _uringwalk "$@"
fi
