# Completion of git farmdawn for fish: by both names, as fish 3.6 takes none of this for `git farmdawn` from the name git-farmdawn alone.
function __git_farmdawn_revisions
    git for-each-ref --format='%(refname:short)' 2>/dev/null
end

# Whether a command is begun behind --
function __git_farmdawn_has_dashes
    contains -- -- (commandline -opc)
end

function __git_farmdawn_command
    set -l words (commandline -opc)
    set -l at (contains -i -- -- $words)
    test (count $words) -eq $at; and __fish_complete_command
end

function __git_farmdawn_complete
    complete -c git-farmdawn $argv
    complete -c git -n '__fish_git_using_command farmdawn' $argv
end

__git_farmdawn_complete -f
complete -c git-farmdawn -n 'not __git_farmdawn_has_dashes' -a '(__git_farmdawn_revisions)'
complete -c git -n '__fish_git_using_command farmdawn; and not __git_farmdawn_has_dashes' -a '(__git_farmdawn_revisions)'
complete -c git-farmdawn -n __git_farmdawn_has_dashes -F -a '(__git_farmdawn_command)'
complete -c git -n '__fish_git_using_command farmdawn; and __git_farmdawn_has_dashes' -F -a '(__git_farmdawn_command)'
__git_farmdawn_complete -s j -l workers -x -d 'how many tests run at once'
__git_farmdawn_complete -l first-parent -d 'follow first parents alone'
__git_farmdawn_complete -l term-new -x -d 'the word for bad'
__git_farmdawn_complete -l term-old -x -d 'the word for good'
__git_farmdawn_complete -l fixed -d 'find the commit that fixed it'
__git_farmdawn_complete -l skip -x -a '(__git_farmdawn_revisions)' -d 'a commit or range that is not to be tested'
__git_farmdawn_complete -l path -r -F -d 'test only commits that change this'
__git_farmdawn_complete -l check-ends -d 'test the bad and the good commits first'
__git_farmdawn_complete -l trust-ends -d 'do not test the bad and the good commits'
__git_farmdawn_complete -l confirm -d 'test the answer and its parents again'
__git_farmdawn_complete -l retry -x -d 'count a failure behind so many others'
__git_farmdawn_complete -l repeat -x -d 'call good what was good so many times'
__git_farmdawn_complete -l measure -d 'find the commit that made a number greater, or less'
__git_farmdawn_complete -l noise -x -d 'search by odds, as a test lies in so many runs'
__git_farmdawn_complete -l sure -x -d 'how sure the answer of --noise is to be'
__git_farmdawn_complete -l timeout -x -d 'end a test that takes longer, and skip its commit'
__git_farmdawn_complete -l deadline -x -d 'stop after so long, and go on with the same line'
__git_farmdawn_complete -l copy -r -F -d 'bring this into each checkout that lacks it'
__git_farmdawn_complete -l link -r -F -d 'link to this in each checkout that lacks it'
__git_farmdawn_complete -l with -r -F -d 'put this in place of the version of each commit'
__git_farmdawn_complete -l apply -r -F -a '(__git_farmdawn_revisions)' -d 'bring a patch before the build: a commit or a file'
__git_farmdawn_complete -l submodules -d 'check out submodules'
__git_farmdawn_complete -l build -x -d 'run this once in a checkout before its tests'
__git_farmdawn_complete -l test -x -d 'search with this command, too: a name and the command'
__git_farmdawn_complete -l tests -r -F -d 'search with the tests or commands of a file'
__git_farmdawn_complete -l tests-from -r -F -d 'search with the tests that failed in a file of JUnit'
__git_farmdawn_complete -l pool -x -a '(__fish_complete_directories)' -d 'keep the checkouts there for the next search'
__git_farmdawn_complete -l keep -x -d 'remove those used longest ago where all take more'
__git_farmdawn_complete -l clean -d 'make the checkout anew for each commit'
__git_farmdawn_complete -l together -d 'run the tests of a commit in its checkout at once'
__git_farmdawn_complete -l private -d 'give each test a /tmp and ports of its own'
__git_farmdawn_complete -l missing -x -d 'what a status of a runner that finds no test stands for, as 4,5=skip'
__git_farmdawn_complete -l build-timeout -x -d 'end a build that takes longer, and skip its commit'
__git_farmdawn_complete -l ended -x -d 'run this where a test or a build did not end by itself'
__git_farmdawn_complete -l state -x -a '(__fish_complete_directories)' -d 'keep outcomes, outputs and the log there'
__git_farmdawn_complete -l log-dir -x -a '(__fish_complete_directories)' -d 'keep the output of each test there'
__git_farmdawn_complete -l log-limit -x -d 'keep so much of each output, as 500k or 10M'
__git_farmdawn_complete -l replay -r -F -d 'go on from a log'
__git_farmdawn_complete -l certificate -r -F -d 'write what others need to check the answer'
__git_farmdawn_complete -l check -r -F -d 'check such a file'
__git_farmdawn_complete -l retest -r -F -d 'test the commit of such a file and its parents'
__git_farmdawn_complete -l report -x -a '(__fish_complete_directories)' -d 'leave a page and result.json there'
__git_farmdawn_complete -l open -d 'open the page of the report at the end'
__git_farmdawn_complete -l prune -d 'remove what is kept of searches that do not run'
__git_farmdawn_complete -s q -l quiet -d 'tell only what is wrong'
__git_farmdawn_complete -l fresh -d 'forget the outcomes of earlier runs'
__git_farmdawn_complete -s h -l help -d 'show help'
__git_farmdawn_complete -l version -d 'show the version'
