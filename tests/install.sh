#!/bin/sh
# Tests of what `make install` brings beside the program: git farmdawn, scripts, manual pages, the shells' completions.
. "$(dirname "$0")/helpers.sh"

scripts='farmdawn-srun farmdawn-ssh'

needs_files() { has make install python3; }
test_files() {
    mkdir -p root/usr/bin root/usr/lib/farmdawn/git_farmdawn && touch root/usr/bin/farmdawn-part root/usr/lib/farmdawn/git_farmdawn/old.py || exit 1
    expect 'make install-scripts' make -s -C "$top" install-scripts DESTDIR="$PWD/root" PREFIX=/usr
    expect 'nothing of an earlier version is left' [ ! -e root/usr/bin/farmdawn-part ] && [ ! -e root/usr/lib/farmdawn/git_farmdawn/old.py ] || exit 1
    for script in $scripts; do
        row expect 'the script is installed' cmp "root/usr/bin/$script" "$top/tools/$script"
        row expect 'and can be run' [ -x "root/usr/bin/$script" ]
    done
    for page in farmdawn git-farmdawn $scripts; do
        row expect 'the page is installed' cmp "root/usr/share/man/man1/$page.1" "$top/man/$page.1"
    done
    for name in farmdawn git-farmdawn; do
        row expect 'completion for bash' cmp "root/usr/share/bash-completion/completions/$name" "$top/completions/farmdawn.bash"
        row expect 'for zsh' cmp "root/usr/share/zsh/site-functions/_$name" "$top/completions/_$name"
        row expect 'for fish' cmp "root/usr/share/fish/vendor_completions.d/$name.fish" "$top/completions/$name.fish"
    done
    expect 'and what fish reads as it begins' cmp root/usr/share/fish/vendor_conf.d/git-farmdawn.fish "$top/completions/git-farmdawn.conf.fish"
    for module in $(cd "$top/driver" && find git_farmdawn -name '*.py'); do
        expect 'the module' cmp "root/usr/lib/farmdawn/$module" "$top/driver/$module"
        [ ! -x /usr/bin/python3 ] || expect 'compiled' [ -n "$(ls "root/usr/lib/farmdawn/$(dirname "$module")/__pycache__/$(basename "$module" .py)".*.pyc)" ]
    done
    expect 'it starts' [ "$(root/usr/bin/git-farmdawn -h)" = "$("$top/driver/bin/git-farmdawn" -h)" ]
    ln -s "$PWD/root/usr/bin/git-farmdawn" 'a link'
    expect 'by a link, too' [ "$('./a link' -h)" = "$("$top/driver/bin/git-farmdawn" -h)" ]
    expect 'make uninstall' make -s -C "$top" uninstall DESTDIR="$PWD/root" PREFIX=/usr
    expect 'nothing is left' [ -z "$(find root -type f)" ]
    expect 'nor a folder of its own' [ ! -e root/usr/lib/farmdawn ]
}

# Without the kit nothing is installed, and a line says so.
needs_without_kit() { has make; }
test_without_kit() {
    mkdir bin && for tool in make sh; do ln -s "$(command -v $tool)" bin/$tool; done
    PATH=$PWD/bin make -s -C "$top" install PREFIX="$PWD/root" 2>told
    expect 'it is refused' [ $? -ne 0 ]
    expect 'in a line' grep -q 'the kit that builds farmdawn, is not installed; nothing was installed$' told
    expect 'nothing is there' [ ! -e root ]
}

# Without a Python that could compile, the modules are as they are.
needs_without_python() { has make install; }
test_without_python() {
    for python in '' /nowhere/python3; do
        row expect 'it is installed' make -s -C "$top" install-scripts DESTDIR="$PWD/root" PREFIX=/usr PYTHON="$python"
        row expect 'and nothing is compiled' [ -z "$(find root -name '*.pyc')" ]
    done
}

needs_help() { has python3; }
test_help() {
    for script in git-farmdawn $scripts; do
        row expect 'the help is shown' "$script" --help >help
        row expect 'in short, too' [ "$("$script" -h)" = "$(cat help)" ]
        lines=32
        [ "$script" != git-farmdawn ] || lines=75
        row expect 'in one screen' [ "$(wc -l <help)" -le $lines ]
        row expect 'of 120 columns' [ "$(awk '{ print length }' help | sort -n | tail -n 1)" -le 120 ]
        row expect 'by its name' grep -q "^usage: .*${script#git-}" help
        for option in $(sed -n 's/^  --\([a-z-]*\).*/\1/p' help); do
            row expect 'the manual has the option' grep -q -- "Fl -$option\b" "$top/man/$script.1"
        done
    done
}

needs_manual() { has mandoc; }
test_manual() {
    for page in "$top"/man/*.1; do
        expect 'the page is clean' [ -z "$(mandoc -Tlint -Wwarning "$page")" ]
    done
}

# What bash offers behind these words, of which the last is begun.
offered() {
    # shellcheck disable=SC2016
    bash -c '. "$1"; shift; COMP_WORDS=("$@"); COMP_CWORD=$(($# - 1)); _farmdawn 2>/dev/null; printf "%s " "${COMPREPLY[@]}"' \
        bash "$top/completions/farmdawn.bash" "$@"
}

needs_bash() { has bash git; }
test_bash() {
    make_line 1 9
    git branch topic
    expect 'commands' [ "$(offered farmdawn s)" = 'simulate sample serve ' ]
    expect 'options' [ "$(offered farmdawn run --first)" = '--first-parent ' ]
    expect 'branches' [ "$(offered farmdawn run to)" = 'topic ' ]
    expect 'the options of a command alone' [ "$(offered farmdawn replay --t)" = ' ' ]
    # git's own completion offers words by __gitcomp
    # shellcheck disable=SC2016
    words=$(bash -c '. "$1"; __gitcomp() { echo "$1"; }; cur=-- prev=farmdawn words=(git farmdawn --) cword=2; _git_farmdawn' bash "$top/completions/farmdawn.bash")
    expect 'the options of git farmdawn' [ "$(sorted_words "$words")" = "$(options_of git-farmdawn)" ]
}

sorted_words() { printf '%s\n' "$1" | tr ' ' '\n' | sort | tr '\n' ' '; }

# The options of a script, as its help has them.
options_of() { sorted_words "$("$1" --help | grep -o '^  --[a-z-]*\|, --[a-z-]*' | grep -o -- '--.*')"; }

needs_zsh() { has zsh; }
test_zsh() {
    for name in _farmdawn _git-farmdawn; do row expect 'zsh reads the completion' zsh -n "$top/completions/$name"; done
    words=$(sed -n "/^    '/s/^.*[', )]\*\?\(--[a-z-]*[a-z]\)[=-]*[['}].*/\1/p" "$top/completions/_git-farmdawn")
    expect 'the options of git farmdawn' [ "$(sorted_words "$words")" = "$(options_of git-farmdawn)" ]
}

needs_fish() { has fish git make install; }
test_fish() {
    make_line 1 9
    git branch topic
    expect 'fish reads the completion' fish -n "$top/completions/farmdawn.fish"
    # shellcheck disable=SC2016
    expect 'and offers commands' sh -c 'fish -N -c ". \$argv[1]; complete -C \"farmdawn sim\"" "$1" | grep -q ^simulate' sh "$top/completions/farmdawn.fish"
    # shellcheck disable=SC2016
    words=$(fish -N -c '. $argv[1]; complete -C "git-farmdawn --"' "$top/completions/git-farmdawn.fish" | cut -f1)
    expect 'the options of git farmdawn' [ "$(sorted_words "$words")" = "$(options_of git-farmdawn)" ]
    # shellcheck disable=SC2016
    expect 'and branches' sh -c 'fish -N -c ". \$argv[1]; complete -C \"farmdawn run to\"" "$1" | grep -q ^topic' sh "$top/completions/farmdawn.fish"
    # as it is installed: `git farmdawn` is completed in a shell that has completed nothing else
    make -s -C "$top" install-scripts DESTDIR="$PWD/root" PREFIX=/usr PYTHON= || exit 1
    for line in 'git farmdawn to:topic' 'git farmdawn --work:--workers' 'git farmdawn --report roo:root/' 'git farmdawn topic topic -- mkdi:mkdir'; do
        found=$(LC_ALL=C.UTF-8 HOME=$PWD PATH=$PWD/root/usr/bin:$PATH XDG_DATA_DIRS=$PWD/root/usr/share:/usr/share fish -i -c "complete -C '${line%:*}'" 2>/dev/null | cut -f 1)
        row expect "fish completes ${line%:*}" [ "$found" = "${line##*:}" ]
    done
}

# All of shellcheck but what a script names, with a reason. The name of the folder may have any bytes.
needs_lint() { has shellcheck; }
test_lint() {
    cd "$top/tools" || exit 1
    for script in farmdawn-*; do expect 'shellcheck' shellcheck -o all "$script"; done
}

run_test "$@"
