# Where `git farmdawn` is completed, fish 3.6 asks for what completes git-farmdawn, and does not read its file for that: so it is read as
# a shell begins.
status is-interactive; and source (status dirname)/../vendor_completions.d/git-farmdawn.fish
