# The manual pages that tools/install puts beside the commands, made of what is said elsewhere: a command's of its --help, niloferq(3) of the header. To be
# read by a shell.

# Text that groff takes as it stands.
for_groff() { sed 's/\\/\\e/g; s/-/\\-/g; s/^\([.'\'']\)/\\\&\1/'; }

# The top of a page.
manual_head() { # NAME SECTION WHAT VERSION
    printf '.TH %s %s "" "%s" "Niloferq"\n.SH NAME\n' "${1^^}" "$2" "$4"
    printf '%s - %s\n' "$1" "$3" | for_groff | sed 's/ \\- / \\- /'
}

manual_foot() { # OTHER..
    local list
    list=$(printf '.BR %s ,\n' "$@")
    printf '.SH SEE ALSO\n%s\n' "${list% ,}"
}

# USAGE is the text of --help: lines from `usage:` on that begin with the command, then what it does, and in its last line the status.
manual_of_command() { # NAME WHAT VERSION USAGE OTHER..
    local name=$1 usage=$4
    manual_head "$name" 1 "$2" "$3"
    printf '.SH SYNOPSIS\n.nf\n'
    sed -n 's/^usage: //p; s/^       //p' <<<"$usage" | for_groff
    printf '.fi\n.SH DESCRIPTION\n'
    sed '/^usage: /d; /^       /d; s/ *Status 0: .*//' <<<"$usage" | sed '/^$/d' | for_groff
    printf '.SH "EXIT STATUS"\n'
    sed -n 's/.*Status 0: \(.*\) 1: \(.*\) 2: \(.*\)$/0: \1\n.br\n1: \2\n.br\n2: \3/p' <<<"$usage" | sed '/^\.br$/!s/-/\\-/g'
    manual_foot "${@:5}"
}

# The header's comments as text, the fields and the code in them as they stand, and each function's lines in bold behind what it says.
manual_of_header() { # HEADER VERSION OTHER..
    manual_head niloferq 3 "the figures of the IPCC 1996 land-use worksheets, for programs in C" "$2"
    printf '.SH SYNOPSIS\n.nf\n#include <niloferq.h>\n\ncc program.c $(pkg\\-config \\-\\-cflags \\-\\-libs niloferq)\n.fi\n.SH DESCRIPTION\n'
    awk '
        function plain(text) { gsub(/\\/, "\\e", text); gsub(/-/, "\\-", text); sub(/^[.'\'']/, "\\\\\\&&", text); return text }
        function kept(text) { if (!keeping) print ".nf"; keeping = 1; print plain(text) }
        function prose(text) { if (keeping) print ".fi"; keeping = 0; print plain(text) }
        NR == 1 { sub(/ Link .*/, " It is for x86-64 Linux.") }
        /^#ifdef __cplusplus/ { skipping = 1 }
        skipping { if (/^#endif/) skipping = 0; next }
        /^#(ifndef|include)/ || /^#define NILOFERQ_H$/ || /^#endif/ { next }
        /^\/\*/ { comment = 1; print ".PP" }
        comment {
            last = sub(/ *\*\/$/, ""); sub(/^\/\* ?/, ""); sub(/^ \*/, "")
            if (/^ *$/) { prose(""); print ".PP" }
            else if (/^      ?[0-9 ][0-9]  / || /^     (block = |for \(kind|row = )/) kept($0)
            else { if (/^ *(- |kind [0-9], |[0-9]+( to [0-9]+)?[:,])/) { prose(""); print ".br" } sub(/^ +/, ""); prose($0) }
            if (last) comment = 0
            next
        }
        NF { kept($0); next }
        { prose("") }
        END { if (keeping) print ".fi" }' "$1" | cat -s
    manual_foot "${@:3}"
}
