# fish completion for uringwalk

function __uringwalk_has_no_word
    test (count (commandline -opc)) -eq 1
end

# Whether the word of the program is one of these.
function __uringwalk_word_is
    set -l typed (commandline -opc)
    set -q typed[2]; and contains -- $typed[2] $argv
end

# The options of the program, and its words.
complete -c uringwalk -f
complete -c uringwalk -s h -l help -d 'Print the usage'
complete -c uringwalk -n __uringwalk_has_no_word -s V -l version -d 'Print the version'
complete -c uringwalk -n __uringwalk_has_no_word -a walk -d 'Run a script\'s schedule, and answer commands'
complete -c uringwalk -n __uringwalk_has_no_word -a check -d 'Print what is wrong with a script'
complete -c uringwalk -n __uringwalk_has_no_word -a trace -d 'Run a script\'s schedule, and write its trace'
complete -c uringwalk -n __uringwalk_has_no_word -a migrate -d 'Put a script\'s setup before a trace of form 1'
complete -c uringwalk -n __uringwalk_has_no_word -a replay -d 'Run a trace of form 2, and answer commands'
complete -c uringwalk -n __uringwalk_has_no_word -a log -d 'Print each event, and what it changed'
complete -c uringwalk -n __uringwalk_has_no_word -a explain -d 'Print what went wrong, and when'
complete -c uringwalk -n __uringwalk_has_no_word -a timeline -d 'Draw a run, moment by moment'
complete -c uringwalk -n __uringwalk_has_no_word -a explore -d 'Look for a schedule that goes wrong'
complete -c uringwalk -n __uringwalk_has_no_word -a schedule -d 'Put a trace\'s events into a script'
complete -c uringwalk -n __uringwalk_has_no_word -a live -d 'Run a script\'s threads side by side'
complete -c uringwalk -n __uringwalk_has_no_word -a serve -d 'Run a script\'s threads for clients'
complete -c uringwalk -n __uringwalk_has_no_word -a dap -d 'Serve an editor as a debug adapter'
complete -c uringwalk -n __uringwalk_has_no_word -a help -d 'Print the usage of the program or of a word'
complete -c uringwalk -n '__uringwalk_word_is help' -a 'walk check trace migrate replay log explain timeline explore schedule live serve dap'

# The files. Where a script is expected, names that end in .json come first.
complete -c uringwalk -n '__uringwalk_word_is walk check trace migrate explore schedule live serve' -k -a '(__fish_complete_suffix .json)'
complete -c uringwalk -n '__uringwalk_word_is replay log explain timeline' -F

# The options of each word.
set -l kinds failed short severed canceled timed-out expired not-found too-late overflow busy waits lost-wake-up \
    not-taken not-reaped unfinished buffer-in-use unordered shared-position fsync-early taken-short \
    no-such-slot cut-off went-on no-effect slot-in-use closed-early closed-while-held several \
    left-running same-user-data not-durable refused-flags stuck closed-twice fsync-retried
complete -c uringwalk -n '__uringwalk_word_is trace' -l form -x -a '1 2' -d 'The form of the trace'
complete -c uringwalk -n '__uringwalk_word_is trace' -l eager -d 'The run of a kernel that does at once all that it can'
complete -c uringwalk -n '__uringwalk_word_is log timeline' -l from -x -d 'The first event'
complete -c uringwalk -n '__uringwalk_word_is log timeline' -l to -x -d 'The event after the last'
complete -c uringwalk -n '__uringwalk_word_is explain' -l json -d 'Print JSON'
complete -c uringwalk -n '__uringwalk_word_is explain' -l sarif -d 'Print a SARIF log'
complete -c uringwalk -n '__uringwalk_word_is explain' -l kind -x -d 'Findings of this kind alone' -a "$kinds"
complete -c uringwalk -n '__uringwalk_word_is explain' -l allow -x -d 'Faults of this kind don\'t count' -a "$kinds"
complete -c uringwalk -n '__uringwalk_word_is explore' -l kind -x -d 'Look for this kind alone' -a "$kinds"
complete -c uringwalk -n '__uringwalk_word_is explore' -l allow -x -d 'Don\'t look for faults of this kind' -a "$kinds"
complete -c uringwalk -n '__uringwalk_word_is explore' -l until -x -d 'Look for a place that gets a value'
complete -c uringwalk -n '__uringwalk_word_is explore' -l runs -x -d 'How many runs there are'
complete -c uringwalk -n '__uringwalk_word_is explore' -l seed -x -d 'The seed of the runs'
complete -c uringwalk -n '__uringwalk_word_is explore' -l first -x -d 'The number of the first run'
complete -c uringwalk -n '__uringwalk_word_is explore' -l events -x -d 'The most events of a run'
complete -c uringwalk -n '__uringwalk_word_is explore' -l out -r -F -d 'The script to write'
complete -c uringwalk -n '__uringwalk_word_is explore' -l unlocked -d 'Threads come between another\'s put, push and enter'
complete -c uringwalk -n '__uringwalk_word_is explore' -l sound-device -d 'No transfer ends short or with EIO'
complete -c uringwalk -n '__uringwalk_word_is explore' -l late -d 'Requests are issued after their submission'
complete -c uringwalk -n '__uringwalk_word_is explore' -l threads -x -d 'How many threads make the runs'
complete -c uringwalk -n '__uringwalk_word_is explore' -l json -d 'Print JSON'
complete -c uringwalk -n '__uringwalk_word_is live serve' -l turns -x -d 'How many turns each thread has'
complete -c uringwalk -n '__uringwalk_word_is live serve' -l kernel -x -d 'How many kernel workers there are'
complete -c uringwalk -n '__uringwalk_word_is live' -l trace -r -F -d 'The trace to write'
complete -c uringwalk -n '__uringwalk_word_is serve' -l port -x -d 'The port to listen on'
complete -c uringwalk -n '__uringwalk_word_is serve' -l clients -x -d 'How many sessions to end after'

# The script that uringwalk-real takes.
complete -c uringwalk-real -f
complete -c uringwalk-real -s h -l help -d 'Print the usage'
complete -c uringwalk-real -k -a '(__fish_complete_suffix .json)'
