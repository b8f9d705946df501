#!/bin/sh
# Makes a repository to practise on, in a new folder: sh docs/practice.sh FOLDER
#
# A small program in C with some sixty commits, a merged branch, the releases v1.0, v1.1 and v1.1.1, three commits that do
# not build, and one that broke `make test`. Each commit has the same name wherever it is made.
set -eu
folder=${1:?usage: sh docs/practice.sh FOLDER}
git init -q -b main --object-format=sha1 "$folder"
cd "$folder"
awk '
function put(path, text) { printf "M 100644 inline %s\ndata %d\n%s\n", path, length(text), text }
function commit(branch, parent, merged, subject) {
    mark++
    printf "commit refs/heads/%s\nmark :%d\n", branch, mark
    printf "committer Ann Lee <ann@example.org> %d +0000\ndata %d\n%s\n", 1700000000 + mark * 3600, length(subject), subject
    if (parent) printf "from :%d\n", parent
    if (merged) printf "merge :%d\n", merged
    put("notes/" mark ".txt", subject "\n")
    return mark
}
function put_program(blocks, header) {
    put("count.c", (header ? "#include \"words.h\"\n" : "") "#include <ctype.h>\n#include <stdio.h>\n\n" \
        "/* Counts the words of the standard input. */\nint main(void) {\n    char block[16];\n    size_t size;\n" \
        "    int words = 0, inside = 0;\n    while ((size = fread(block, 1, sizeof block, stdin)) > 0) {\n" \
        (blocks ? "        inside = 0;\n" : "") \
        "        for (size_t at = 0; at < size; at++) {\n            int blank = isspace((unsigned char)block[at]) != 0;\n" \
        "            words += !blank && !inside;\n            inside = !blank;\n        }\n    }\n" \
        "    printf(\"%d\\n\", words);\n    return 0;\n}\n")
}
BEGIN {
    tip = commit("main", 0, 0, "Count words")
    put("Makefile", "count: count.c\n\t$(CC) -o $@ count.c\ntest: count\n\tsh test.sh\n")
    put("test.sh", "sleep 0.2\n[ \"$(echo \"one two three, and four of them\" | ./count)\" -eq 7 ]\n")
    put(".gitignore", "count\n")
    put_program(0, 0)
    for (number = 2; number <= 60; number++) {
        if (number == 36) {
            side = commit("spaces", tip, 0, "Name the blanks")
            for (i = 2; i <= 4; i++) side = commit("spaces", side, 0, "Blanks, part " i)
            tip = commit("main", tip, side, "Merge branch spaces")
            continue
        }
        subject = "Note " number
        if (number == 26) subject = "Move the words into a header"
        if (number == 29) subject = "Take the header back"
        if (number == 47) subject = "Forget the word at the end of a block"
        tip = commit("main", tip, 0, subject)
        if (number == 26) put_program(0, 1)
        if (number == 29) put_program(0, 0)
        if (number == 47) put_program(1, 0)
        if (number == 5) first = tip
        if (number == 20) second = tip
    }
    fix = commit("release", second, 0, "Name the release")
    printf "reset refs/tags/v1.0\nfrom :%d\n\nreset refs/tags/v1.1\nfrom :%d\n\nreset refs/tags/v1.1.1\nfrom :%d\n\n", first, second, fix
}' /dev/null | git fast-import --quiet
git checkout -q main
