# Completion of farmdawn for fish.
function __farmdawn_revisions
    git for-each-ref --format='%(refname:short)' 2>/dev/null
end

complete -c farmdawn -f
complete -c farmdawn -n __fish_use_subcommand -a simulate -d 'search by a written plan'
complete -c farmdawn -n __fish_use_subcommand -a run -d 'search by a test command'
complete -c farmdawn -n __fish_use_subcommand -a next -d 'tell which commit to test next'
complete -c farmdawn -n __fish_use_subcommand -a replay -d 'tell what a log comes to'
complete -c farmdawn -n __fish_use_subcommand -a gen -d 'write a generated stream'
complete -c farmdawn -n __fish_use_subcommand -a sample -d 'search a generated stream'
complete -c farmdawn -n __fish_use_subcommand -a certify -d 'print a certificate of the first bad commit'
complete -c farmdawn -n __fish_use_subcommand -a check -d 'check a certificate'
complete -c farmdawn -n __fish_use_subcommand -a checkout -d 'test each commit in a folder with its files'
complete -c farmdawn -n __fish_use_subcommand -a journal -d 'keep each outcome in a file'
complete -c farmdawn -n __fish_use_subcommand -a many -d 'search for several commits at once'
complete -c farmdawn -n __fish_use_subcommand -a serve -d 'tell a scheduler what to test'
complete -c farmdawn -n '__fish_seen_subcommand_from certify checkout journal' -a run -d 'search by a test command'
complete -c farmdawn -n '__fish_seen_subcommand_from certify' -a simulate -d 'search by a written plan'
complete -c farmdawn -n '__fish_seen_subcommand_from check many' -F
complete -c farmdawn -n __fish_use_subcommand -l help -d 'show help'
complete -c farmdawn -n __fish_use_subcommand -l version -d 'show the version'

complete -c farmdawn -n '__fish_seen_subcommand_from check serve' -l original-names -d 'name commits by their lines original-oid'

set -l searches '__fish_seen_subcommand_from simulate run next'
complete -c farmdawn -n $searches -a '(__farmdawn_revisions)'
complete -c farmdawn -n $searches -l first-parent -d 'follow first parents alone'
complete -c farmdawn -n $searches -l term-new -x -d 'the word for bad'
complete -c farmdawn -n $searches -l term-old -x -d 'the word for good'
complete -c farmdawn -n $searches -l skip -x -a '(__farmdawn_revisions)' -d 'a commit or range that is not to be tested'
complete -c farmdawn -n '__fish_seen_subcommand_from simulate run next replay' -l replay -r -F -d 'go on from a log'
set -l runs '__fish_seen_subcommand_from simulate run'
set -l tells '__fish_seen_subcommand_from simulate run; and not __fish_seen_subcommand_from certify'
complete -c farmdawn -n '__fish_seen_subcommand_from simulate run sample' -l workers -x -d 'how many tests run at once'
complete -c farmdawn -n $tells -l leg -x -d 'write the log after so many marks'
complete -c farmdawn -n $tells -l trace -d 'print what the workers did'
complete -c farmdawn -n $runs -l lenient-exit -d 'take the statuses 126 and 127 as bad'
